// comb.add of one operand
hw.module @T(in %a : i8, in %b : i8, in %c : i8, in %s : i1, out o : i8) {
  %o = comb.add %a : i8
  hw.output %o : i8
}
// -----
// comb.add of two operands
hw.module @T(in %a : i8, in %b : i8, in %c : i8, in %s : i1, out o : i8) {
  %o = comb.add %a, %b : i8
  hw.output %o : i8
}
// -----
// comb.add of three operands
hw.module @T(in %a : i8, in %b : i8, in %c : i8, in %s : i1, out o : i8) {
  %o = comb.add %a, %b, %c : i8
  hw.output %o : i8
}
// -----
// comb.mul of one operand
hw.module @T(in %a : i8, in %b : i8, in %c : i8, in %s : i1, out o : i8) {
  %o = comb.mul %a : i8
  hw.output %o : i8
}
// -----
// comb.mul of two operands
hw.module @T(in %a : i8, in %b : i8, in %c : i8, in %s : i1, out o : i8) {
  %o = comb.mul %a, %b : i8
  hw.output %o : i8
}
// -----
// comb.mul of three operands
hw.module @T(in %a : i8, in %b : i8, in %c : i8, in %s : i1, out o : i8) {
  %o = comb.mul %a, %b, %c : i8
  hw.output %o : i8
}
// -----
// comb.and of one operand
hw.module @T(in %a : i8, in %b : i8, in %c : i8, in %s : i1, out o : i8) {
  %o = comb.and %a : i8
  hw.output %o : i8
}
// -----
// comb.and of two operands
hw.module @T(in %a : i8, in %b : i8, in %c : i8, in %s : i1, out o : i8) {
  %o = comb.and %a, %b : i8
  hw.output %o : i8
}
// -----
// comb.and of three operands
hw.module @T(in %a : i8, in %b : i8, in %c : i8, in %s : i1, out o : i8) {
  %o = comb.and %a, %b, %c : i8
  hw.output %o : i8
}
// -----
// comb.or of one operand
hw.module @T(in %a : i8, in %b : i8, in %c : i8, in %s : i1, out o : i8) {
  %o = comb.or %a : i8
  hw.output %o : i8
}
// -----
// comb.or of two operands
hw.module @T(in %a : i8, in %b : i8, in %c : i8, in %s : i1, out o : i8) {
  %o = comb.or %a, %b : i8
  hw.output %o : i8
}
// -----
// comb.or of three operands
hw.module @T(in %a : i8, in %b : i8, in %c : i8, in %s : i1, out o : i8) {
  %o = comb.or %a, %b, %c : i8
  hw.output %o : i8
}
// -----
// comb.xor of one operand
hw.module @T(in %a : i8, in %b : i8, in %c : i8, in %s : i1, out o : i8) {
  %o = comb.xor %a : i8
  hw.output %o : i8
}
// -----
// comb.xor of two operands
hw.module @T(in %a : i8, in %b : i8, in %c : i8, in %s : i1, out o : i8) {
  %o = comb.xor %a, %b : i8
  hw.output %o : i8
}
// -----
// comb.xor of three operands
hw.module @T(in %a : i8, in %b : i8, in %c : i8, in %s : i1, out o : i8) {
  %o = comb.xor %a, %b, %c : i8
  hw.output %o : i8
}
// -----
// comb.add with `bin`
hw.module @T(in %a : i8, in %b : i8, in %c : i8, in %s : i1, out o : i8) {
  %o = comb.add bin %a, %b : i8
  hw.output %o : i8
}
// -----
// comb.sub
hw.module @T(in %a : i8, in %b : i8, in %c : i8, in %s : i1, out o : i8) {
  %o = comb.sub %a, %b : i8
  hw.output %o : i8
}
// -----
// comb.divu by 3
hw.module @T(in %a : i8, in %b : i8, in %c : i8, in %s : i1, out o : i8) {
  %k = hw.constant 3 : i8
  %o = comb.divu %a, %k : i8
  hw.output %o : i8
}
// -----
// comb.modu by 3
hw.module @T(in %a : i8, in %b : i8, in %c : i8, in %s : i1, out o : i8) {
  %k = hw.constant 3 : i8
  %o = comb.modu %a, %k : i8
  hw.output %o : i8
}
// -----
// comb.divs by -3
hw.module @T(in %a : i8, in %b : i8, in %c : i8, in %s : i1, out o : i8) {
  %k = hw.constant -3 : i8
  %o = comb.divs %a, %k : i8
  hw.output %o : i8
}
// -----
// comb.mods by 3
hw.module @T(in %a : i8, in %b : i8, in %c : i8, in %s : i1, out o : i8) {
  %k = hw.constant 3 : i8
  %o = comb.mods %a, %k : i8
  hw.output %o : i8
}
// -----
// comb.shl by a value
hw.module @T(in %a : i8, in %b : i8, in %c : i8, in %s : i1, out o : i8) {
  %o = comb.shl %a, %b : i8
  hw.output %o : i8
}
// -----
// comb.shru by a value
hw.module @T(in %a : i8, in %b : i8, in %c : i8, in %s : i1, out o : i8) {
  %o = comb.shru %a, %b : i8
  hw.output %o : i8
}
// -----
// comb.shrs by a value
hw.module @T(in %a : i8, in %b : i8, in %c : i8, in %s : i1, out o : i8) {
  %o = comb.shrs %a, %b : i8
  hw.output %o : i8
}
// -----
// comb.shl by 200, more than the width
hw.module @T(in %a : i8, in %b : i8, in %c : i8, in %s : i1, out o : i8) {
  %k = hw.constant 200 : i8
  %o = comb.shl %a, %k : i8
  hw.output %o : i8
}
// -----
// comb.mux
hw.module @T(in %a : i8, in %b : i8, in %c : i8, in %s : i1, out o : i8) {
  %o = comb.mux %s, %a, %b : i8
  hw.output %o : i8
}
// -----
// hw.bitcast of 8 bits to 8 bits
hw.module @T(in %a : i8, in %b : i8, in %c : i8, in %s : i1, out o : i8) {
  %o = hw.bitcast %a : (i8) -> i8
  hw.output %o : i8
}
// -----
// hw.constant 255 of 8 bits
hw.module @T(in %a : i8, in %b : i8, in %c : i8, in %s : i1, out o : i8) {
  %o = hw.constant 255 : i8
  hw.output %o : i8
}
// -----
// hw.constant -1 of 8 bits
hw.module @T(in %a : i8, in %b : i8, in %c : i8, in %s : i1, out o : i8) {
  %o = hw.constant -1 : i8
  hw.output %o : i8
}
// -----
// hw.constant 0 of 8 bits
hw.module @T(in %a : i8, in %b : i8, in %c : i8, in %s : i1, out o : i8) {
  %o = hw.constant 0 : i8
  hw.output %o : i8
}
// -----
// hw.constant 10 of 8 bits
hw.module @T(in %a : i8, in %b : i8, in %c : i8, in %s : i1, out o : i8) {
  %o = hw.constant 10 : i8
  hw.output %o : i8
}
// -----
// hw.constant true
hw.module @T(in %a : i8, in %b : i8, in %c : i8, in %s : i1, out o : i1) {
  %o = hw.constant true
  hw.output %o : i1
}
// -----
// hw.constant false
hw.module @T(in %a : i8, in %b : i8, in %c : i8, in %s : i1, out o : i1) {
  %o = hw.constant false
  hw.output %o : i1
}
// -----
// hw.constant -1 of 128 bits
hw.module @T(in %a : i8, in %b : i8, in %c : i8, in %s : i1, out o : i128) {
  %o = hw.constant -1 : i128
  hw.output %o : i128
}
