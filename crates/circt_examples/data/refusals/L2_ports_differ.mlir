// L2: an input of another width
hw.module @p(in %x : i8, out o : i8) {
  hw.output %x : i8
}
hw.module @q(in %x : i4, out o : i8) {
  %0 = hw.constant 0 : i8
  hw.output %0 : i8
}
// -----
// L2: an output of another width, in the module that stands first
hw.module @q(in %x : i8, out o : i4) {
  %0 = hw.constant 0 : i4
  hw.output %0 : i4
}
hw.module @p(in %x : i8, out o : i8) {
  hw.output %x : i8
}
// -----
// L2: one more input
hw.module @p(in %x : i8, out o : i8) {
  hw.output %x : i8
}
hw.module @q(in %x : i8, in %y : i8, out o : i8) {
  hw.output %x : i8
}
// -----
// L2: inputs in another order
hw.module @p(in %x : i8, in %y : i4, out o : i8) {
  hw.output %x : i8
}
hw.module @q(in %y : i4, in %x : i8, out o : i8) {
  hw.output %x : i8
}
// -----
// L2: an array of as many bits as a word
hw.module @p(in %x : i8, out o : i8) {
  hw.output %x : i8
}
hw.module @q(in %x : !hw.array<8xi1>, out o : i8) {
  %0 = hw.bitcast %x : (!hw.array<8xi1>) -> i8
  hw.output %0 : i8
}
// -----
// L2: a clock for a bit
hw.module @p(in %c : i1, in %x : i8, out o : i8) {
  hw.output %x : i8
}
hw.module @q(in %c : !seq.clock, in %x : i8, out o : i8) {
  hw.output %x : i8
}
