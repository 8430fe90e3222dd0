// V7: one copy and a half
hw.module @T(in %a : i8, out o : i8) {
  %0 = comb.replicate %a : (i8) -> i12
  hw.output %a : i8
}
// -----
// V7: half a copy
hw.module @T(in %a : i8, out o : i8) {
  %0 = comb.replicate %a : (i8) -> i4
  hw.output %a : i8
}
// -----
// V7: two copies and a half
hw.module @T(in %a : i8) {
  %0 = comb.replicate %a : (i8) -> i20
}
