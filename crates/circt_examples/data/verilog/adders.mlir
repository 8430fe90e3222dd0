// an empty text
// -----
// an empty list of modules
module {}
// -----
// a comment alone
// nothing
// -----
// a sum of one bit, the operands exchanged
hw.module @A(in %a : i1, in %b : i1, out c : i1) {
  %0 = comb.add %b, %a : i1
  hw.output %0 : i1
}
// -----
// a sum of 128 bits of one operand twice
hw.module @A(in %a : i128, out c : i128) {
  %s = comb.add %a, %a : i128
  hw.output %s : i128
}
// -----
// a named module with port names of their own, and a sum of some inputs
module @W {
  hw.module @A_1(in %x "p" : i2, in %y : i2, in %z "q_2" : i2, out "o" : i2) {
    %a = comb.add %z, %x : i2
    hw.output %a : i2
  }
}
