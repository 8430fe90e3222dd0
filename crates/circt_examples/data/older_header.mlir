// a module with an older header
hw.module @O(%a: i8, %b: i8) -> (c: i8) {
  %0 = comb.add %a, %b : i8
  hw.output %0 : i8
}
