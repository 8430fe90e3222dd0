// an arithmetic shift on the left of an xor
hw.module @T(in %a : i8, in %b : i8, in %c : i8, in %s : i1, out o : i8) {
  %0 = comb.shrs %a, %b : i8
  %o = comb.xor %0, %c : i8
  hw.output %o : i8
}
// -----
// an arithmetic shift in a mux
hw.module @T(in %a : i8, in %b : i8, in %c : i8, in %s : i1, out o : i8) {
  %0 = comb.shrs %a, %b : i8
  %o = comb.mux %s, %0, %c : i8
  hw.output %o : i8
}
// -----
// a signed quotient that is shifted without sign
hw.module @T(in %a : i8, in %b : i8, in %c : i8, in %s : i1, out o : i8) {
  %k = hw.constant -3 : i8
  %0 = comb.divs %a, %k : i8
  %o = comb.shru %0, %b : i8
  hw.output %o : i8
}
// -----
// an arithmetic shift on the left of an equality
hw.module @T(in %a : i8, in %b : i8, in %c : i8, in %s : i1, out o : i1) {
  %0 = comb.shrs %a, %b : i8
  %o = comb.icmp eq %0, %c : i8
  hw.output %o : i1
}
// -----
// an arithmetic shift on the left of a signed order
hw.module @T(in %a : i8, in %b : i8, in %c : i8, in %s : i1, out o : i1) {
  %0 = comb.shrs %a, %b : i8
  %o = comb.icmp slt %0, %c : i8
  hw.output %o : i1
}
// -----
// an arithmetic shift on the left of an order without sign
hw.module @T(in %a : i8, in %b : i8, in %c : i8, in %s : i1, out o : i1) {
  %0 = comb.shrs %a, %b : i8
  %o = comb.icmp ult %0, %c : i8
  hw.output %o : i1
}
// -----
// an arithmetic shift that is shifted arithmetically
hw.module @T(in %a : i8, in %b : i8, in %c : i8, in %s : i1, out o : i8) {
  %0 = comb.shrs %a, %b : i8
  %o = comb.shrs %0, %c : i8
  hw.output %o : i8
}
// -----
// an arithmetic shift as the amount of a shift to the left
hw.module @T(in %a : i8, in %b : i8, in %c : i8, in %s : i1, out o : i8) {
  %0 = comb.shrs %b, %c : i8
  %o = comb.shl %a, %0 : i8
  hw.output %o : i8
}
// -----
// an arithmetic shift that is shifted to the left
hw.module @T(in %a : i8, in %b : i8, in %c : i8, in %s : i1, out o : i8) {
  %0 = comb.shrs %a, %b : i8
  %o = comb.shl %0, %c : i8
  hw.output %o : i8
}
// -----
// an arithmetic shift as the amount of an arithmetic shift
hw.module @T(in %a : i8, in %b : i8, in %c : i8, in %s : i1, out o : i8) {
  %0 = comb.shrs %b, %c : i8
  %o = comb.shrs %a, %0 : i8
  hw.output %o : i8
}
// -----
// the signed remainder of a signed quotient
hw.module @T(in %a : i8, in %b : i8, in %c : i8, in %s : i1, out o : i8) {
  %k = hw.constant -3 : i8
  %0 = comb.divs %a, %k : i8
  %o = comb.mods %0, %k : i8
  hw.output %o : i8
}
// -----
// the signed quotient of a product
hw.module @T(in %a : i8, in %b : i8, in %c : i8, in %s : i1, out o : i8) {
  %k = hw.constant -3 : i8
  %0 = comb.mul %a, %b : i8
  %o = comb.divs %0, %k : i8
  hw.output %o : i8
}
// -----
// the quotient without sign of a signed remainder
hw.module @T(in %a : i8, in %b : i8, in %c : i8, in %s : i1, out o : i8) {
  %k = hw.constant 3 : i8
  %0 = comb.mods %a, %k : i8
  %o = comb.divu %0, %k : i8
  hw.output %o : i8
}
// -----
// a bitcast of an arithmetic shift
hw.module @T(in %a : i8, in %b : i8, in %c : i8, in %s : i1, out o : i8) {
  %0 = comb.shrs %a, %b : i8
  %o = hw.bitcast %0 : (i8) -> i8
  hw.output %o : i8
}
// -----
// a sum of an arithmetic shift alone, in a sum
hw.module @T(in %a : i8, in %b : i8, in %c : i8, in %s : i1, out o : i8) {
  %0 = comb.shrs %a, %b : i8
  %1 = comb.add %0 : i8
  %o = comb.add %1, %c : i8
  hw.output %o : i8
}
// -----
// an extract of all bits of an arithmetic shift, on the right of a difference
hw.module @T(in %a : i8, in %b : i8, in %c : i8, in %s : i1, out o : i8) {
  %0 = comb.shrs %a, %b : i8
  %1 = comb.extract %0 from 0 : (i8) -> i8
  %o = comb.sub %c, %1 : i8
  hw.output %o : i8
}
// -----
// an arithmetic shift of one bit as the condition of a mux
hw.module @T(in %a : i8, in %b : i8, in %c : i8, in %s : i1, out o : i8) {
  %0 = comb.shrs %s, %s : i1
  %o = comb.mux %0, %a, %b : i8
  hw.output %o : i8
}
