// an older header without ports
hw.module @M() -> () {}
// -----
// an older header of one input without results
hw.module @M(%a: i8) {}
// -----
// an older header of one input and an empty list of results
hw.module @M(%a: i8) -> () {}
// -----
// an older header of a private module with a clock
hw.module private @M(%a: i8, %clk: !seq.clock) {}
// -----
// an older header of one result
hw.module @M() -> (c: i1) {
  %0 = hw.constant true
  hw.output %0 : i1
}
// -----
// an older header of two results, one with a quoted name, and a dictionary
hw.module @M(%a: i8) -> ("x y": i8, c: i8) attributes {k} {
  hw.output %a, %a : i8, i8
}
