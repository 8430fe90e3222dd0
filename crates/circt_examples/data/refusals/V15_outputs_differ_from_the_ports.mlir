// V15: no output for a port
hw.module @T(in %a : i8, out o : i8) {
  hw.output
}
// -----
// V15: an output of four bits for a port of eight
hw.module @T(in %a : i8, in %c : i4, out o : i8) {
  hw.output %c : i4
}
// -----
// V15: two outputs for a port
hw.module @T(in %a : i8, out o : i8) {
  hw.output %a, %a : i8, i8
}
// -----
// V15: an output without a port
hw.module @T(in %a : i8) {
  hw.output %a : i8
}
