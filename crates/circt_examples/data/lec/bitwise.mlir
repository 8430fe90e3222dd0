// an or of two ands of 16 bits, against an and of an or
hw.module @p(in %a : i16, in %b : i16, in %c : i16, out o : i16) {
  %0 = comb.and %a, %b : i16
  %1 = comb.and %a, %c : i16
  %2 = comb.or %0, %1 : i16
  hw.output %2 : i16
}
hw.module @q(in %a : i16, in %b : i16, in %c : i16, out o : i16) {
  %0 = comb.or %b, %c : i16
  %1 = comb.and %a, %0 : i16
  hw.output %1 : i16
}
// -----
// an or of two ands of 16 bits, against an or in the place of the and
hw.module @p(in %a : i16, in %b : i16, in %c : i16, out o : i16) {
  %0 = comb.and %a, %b : i16
  %1 = comb.and %a, %c : i16
  %2 = comb.or %0, %1 : i16
  hw.output %2 : i16
}
hw.module @q(in %a : i16, in %b : i16, in %c : i16, out o : i16) {
  %0 = comb.or %b, %c : i16
  %1 = comb.or %a, %0 : i16
  hw.output %1 : i16
}
