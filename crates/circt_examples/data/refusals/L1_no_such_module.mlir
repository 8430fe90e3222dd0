// L1: the second module is missing
hw.module @p(in %x : i8, out o : i8) {
  hw.output %x : i8
}
// -----
// L1: the first module is missing
hw.module @q(in %x : i8, out o : i8) {
  hw.output %x : i8
}
// -----
// L1: both are missing
hw.module @r(in %x : i8, out o : i8) {
  hw.output %x : i8
}
// -----
// L1: a name in other letters
hw.module @p(in %x : i8, out o : i8) {
  hw.output %x : i8
}
hw.module @Q(in %x : i8, out o : i8) {
  hw.output %x : i8
}
