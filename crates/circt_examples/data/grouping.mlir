// a difference on the right of a difference has parentheses
hw.module @T(in %a : i8, in %b : i8, in %c : i8, out o : i8) {
  %0 = comb.sub %b, %c : i8
  %1 = comb.sub %a, %0 : i8
  hw.output %1 : i8
}
// -----
// a difference on the left of a difference has none
hw.module @T(in %a : i8, in %b : i8, in %c : i8, out o : i8) {
  %0 = comb.sub %a, %b : i8
  %1 = comb.sub %0, %c : i8
  hw.output %1 : i8
}
