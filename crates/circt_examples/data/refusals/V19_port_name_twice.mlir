// V19: two inputs of one port name
hw.module @T(in %a : i8, in %b "a" : i8) {
}
// -----
// V19: an output of an input's name
hw.module @T(in %a : i8, out a : i8) {
  hw.output %a : i8
}
// -----
// V19: two outputs of one name, one of them quoted
hw.module @T(in %a : i8, out o : i8, out "o" : i8) {
  hw.output %a, %a : i8, i8
}
