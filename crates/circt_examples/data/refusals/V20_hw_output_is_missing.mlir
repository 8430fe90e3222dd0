// V20: an empty body for a module with an output
hw.module @T(in %a : i8, out o : i8) {}
// -----
// V20: a body without hw.output for a module with an output
hw.module @T(in %a : i8, out o : i8) {
  %0 = comb.add %a, %a : i8
}
