// V6: four bits of eight from bit 5
hw.module @T(in %a : i8, out o : i8) {
  %1 = comb.extract %a from 5 : (i8) -> i4
  hw.output %a : i8
}
// -----
// V6: one bit of eight from bit 8
hw.module @T(in %a : i8, out o : i8) {
  %1 = comb.extract %a from 8 : (i8) -> i1
  hw.output %a : i8
}
// -----
// V6: eight bits of eight from bit 4294967295
hw.module @T(in %a : i8, out o : i8) {
  %1 = comb.extract %a from 4294967295 : (i8) -> i8
  hw.output %a : i8
}
// -----
// V6: one bit too many from bit 5
hw.module @T(in %a : i8) {
  %0 = comb.extract %a from 5 : (i8) -> i4
}
