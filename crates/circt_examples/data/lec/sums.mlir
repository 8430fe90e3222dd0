// a sum of three words of 16 bits, against the same from the last two on
hw.module @p(in %a : i16, in %b : i16, in %c : i16, out o : i16) {
  %0 = comb.add %a, %b : i16
  %1 = comb.add %0, %c : i16
  hw.output %1 : i16
}
hw.module @q(in %a : i16, in %b : i16, in %c : i16, out o : i16) {
  %0 = comb.add %b, %c : i16
  %1 = comb.add %a, %0 : i16
  hw.output %1 : i16
}
