// S2: the end of the text after an operation, without a line end
hw.module @T(in %a : i8, out o : i8) {
  hw.output %a : i8