// S2: the end of the text in place of a type
hw.module @T(in %a : i8, out c : i8) {
  hw.output %a :