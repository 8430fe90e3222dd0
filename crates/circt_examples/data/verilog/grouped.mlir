// a difference on the right of a difference
hw.module @T(in %a : i8, in %b : i8, in %c : i8, in %s : i1, out o : i8) {
  %0 = comb.sub %b, %c : i8
  %o = comb.sub %a, %0 : i8
  hw.output %o : i8
}
// -----
// a difference on the left of a difference
hw.module @T(in %a : i8, in %b : i8, in %c : i8, in %s : i1, out o : i8) {
  %0 = comb.sub %a, %b : i8
  %o = comb.sub %0, %c : i8
  hw.output %o : i8
}
// -----
// a sum on the right of a sum
hw.module @T(in %a : i8, in %b : i8, in %c : i8, in %s : i1, out o : i8) {
  %0 = comb.add %a, %b : i8
  %o = comb.add %c, %0 : i8
  hw.output %o : i8
}
// -----
// a sum as the first of three operands of a sum
hw.module @T(in %a : i8, in %b : i8, in %c : i8, in %s : i1, out o : i8) {
  %0 = comb.add %a, %b : i8
  %o = comb.add %0, %c, %a : i8
  hw.output %o : i8
}
// -----
// a sum on the left of a product
hw.module @T(in %a : i8, in %b : i8, in %c : i8, in %s : i1, out o : i8) {
  %0 = comb.add %a, %b : i8
  %o = comb.mul %0, %c : i8
  hw.output %o : i8
}
// -----
// a product on the right of a sum
hw.module @T(in %a : i8, in %b : i8, in %c : i8, in %s : i1, out o : i8) {
  %0 = comb.mul %a, %b : i8
  %o = comb.add %c, %0 : i8
  hw.output %o : i8
}
// -----
// a quotient on the left of a quotient
hw.module @T(in %a : i8, in %b : i8, in %c : i8, in %s : i1, out o : i8) {
  %k = hw.constant 3 : i8
  %0 = comb.divu %a, %k : i8
  %o = comb.divu %0, %k : i8
  hw.output %o : i8
}
// -----
// a quotient on the right of a product
hw.module @T(in %a : i8, in %b : i8, in %c : i8, in %s : i1, out o : i8) {
  %k = hw.constant 3 : i8
  %0 = comb.divu %a, %k : i8
  %o = comb.mul %c, %0 : i8
  hw.output %o : i8
}
// -----
// a sum as the amount of a shift
hw.module @T(in %a : i8, in %b : i8, in %c : i8, in %s : i1, out o : i8) {
  %0 = comb.add %b, %c : i8
  %o = comb.shl %a, %0 : i8
  hw.output %o : i8
}
// -----
// a shift to the left, shifted to the right
hw.module @T(in %a : i8, in %b : i8, in %c : i8, in %s : i1, out o : i8) {
  %0 = comb.shl %a, %b : i8
  %o = comb.shru %0, %c : i8
  hw.output %o : i8
}
// -----
// a shift as the amount of a shift
hw.module @T(in %a : i8, in %b : i8, in %c : i8, in %s : i1, out o : i8) {
  %0 = comb.shl %a, %b : i8
  %o = comb.shl %c, %0 : i8
  hw.output %o : i8
}
// -----
// an and on the left of an or
hw.module @T(in %a : i8, in %b : i8, in %c : i8, in %s : i1, out o : i8) {
  %0 = comb.and %a, %b : i8
  %o = comb.or %0, %c : i8
  hw.output %o : i8
}
// -----
// an or on the left of an and
hw.module @T(in %a : i8, in %b : i8, in %c : i8, in %s : i1, out o : i8) {
  %0 = comb.or %a, %b : i8
  %o = comb.and %0, %c : i8
  hw.output %o : i8
}
// -----
// an xor on the right of an and
hw.module @T(in %a : i8, in %b : i8, in %c : i8, in %s : i1, out o : i8) {
  %0 = comb.xor %a, %b : i8
  %o = comb.and %c, %0 : i8
  hw.output %o : i8
}
// -----
// an xor on the left of an equality
hw.module @T(in %a : i8, in %b : i8, in %c : i8, in %s : i1, out o : i1) {
  %0 = comb.xor %a, %b : i8
  %o = comb.icmp eq %0, %c : i8
  hw.output %o : i1
}
// -----
// a sum on the left of an order
hw.module @T(in %a : i8, in %b : i8, in %c : i8, in %s : i1, out o : i1) {
  %0 = comb.add %a, %b : i8
  %o = comb.icmp ult %0, %c : i8
  hw.output %o : i1
}
// -----
// an order on the left of an equality
hw.module @T(in %a : i8, in %b : i8, in %c : i8, in %s : i1, out o : i1) {
  %0 = comb.icmp ult %a, %b : i8
  %o = comb.icmp eq %0, %s : i1
  hw.output %o : i1
}
// -----
// an equality on the left of an inequality
hw.module @T(in %a : i8, in %b : i8, in %c : i8, in %s : i1, out o : i1) {
  %0 = comb.icmp eq %a, %b : i8
  %o = comb.icmp ne %0, %s : i1
  hw.output %o : i1
}
// -----
// an equality on the right of an inequality
hw.module @T(in %a : i8, in %b : i8, in %c : i8, in %s : i1, out o : i1) {
  %0 = comb.icmp eq %a, %b : i8
  %o = comb.icmp ne %s, %0 : i1
  hw.output %o : i1
}
// -----
// an order on the left of an xor
hw.module @T(in %a : i8, in %b : i8, in %c : i8, in %s : i1, out o : i1) {
  %0 = comb.icmp ult %a, %b : i8
  %o = comb.xor %0, %s : i1
  hw.output %o : i1
}
// -----
// a mux as the second operand of a mux
hw.module @T(in %a : i8, in %b : i8, in %c : i8, in %s : i1, out o : i8) {
  %0 = comb.mux %s, %a, %b : i8
  %o = comb.mux %s, %0, %c : i8
  hw.output %o : i8
}
// -----
// a mux as the third operand of a mux
hw.module @T(in %a : i8, in %b : i8, in %c : i8, in %s : i1, out o : i8) {
  %0 = comb.mux %s, %a, %b : i8
  %o = comb.mux %s, %c, %0 : i8
  hw.output %o : i8
}
// -----
// a mux as the condition of a mux
hw.module @T(in %a : i8, in %b : i8, in %c : i8, in %s : i1, out o : i8) {
  %0 = comb.mux %s, %s, %s : i1
  %o = comb.mux %0, %a, %b : i8
  hw.output %o : i8
}
// -----
// an equality as the condition of a mux
hw.module @T(in %a : i8, in %b : i8, in %c : i8, in %s : i1, out o : i8) {
  %0 = comb.icmp eq %a, %b : i8
  %o = comb.mux %0, %a, %c : i8
  hw.output %o : i8
}
// -----
// a mux on the left of a sum
hw.module @T(in %a : i8, in %b : i8, in %c : i8, in %s : i1, out o : i8) {
  %0 = comb.mux %s, %a, %b : i8
  %o = comb.add %0, %c : i8
  hw.output %o : i8
}
// -----
// a mux on the left of a signed order
hw.module @T(in %a : i8, in %b : i8, in %c : i8, in %s : i1, out o : i1) {
  %0 = comb.mux %s, %a, %b : i8
  %o = comb.icmp slt %0, %c : i8
  hw.output %o : i1
}
// -----
// a constant twice in a sum
hw.module @T(in %a : i8, in %b : i8, in %c : i8, in %s : i1, out o : i8) {
  %k = hw.constant 5 : i8
  %o = comb.add %a, %k, %k : i8
  hw.output %o : i8
}
// -----
// a sum that stands after the difference that it is in
hw.module @T(in %a : i8, in %b : i8, in %c : i8, in %s : i1, out o : i8) {
  %o = comb.sub %0, %c : i8
  %0 = comb.add %a, %b : i8
  hw.output %o : i8
}
// -----
// a mux in a concat
hw.module @T(in %a : i8, in %b : i8, in %c : i8, in %s : i1, out o : i16) {
  %0 = comb.mux %s, %a, %b : i8
  %o = comb.concat %0, %c : i8, i8
  hw.output %o : i16
}
