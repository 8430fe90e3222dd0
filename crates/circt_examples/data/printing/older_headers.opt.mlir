// an older header without ports
module {
  hw.module @M() {
    hw.output
  }
}
// -----
// an older header of one input without results
module {
  hw.module @M(in %a : i8) {
    hw.output
  }
}
// -----
// an older header of one input and an empty list of results
module {
  hw.module @M(in %a : i8) {
    hw.output
  }
}
// -----
// an older header of a private module with a clock
module {
  hw.module private @M(in %a : i8, in %clk : !seq.clock) {
    hw.output
  }
}
// -----
// an older header of one result
module {
  hw.module @M(out c : i1) {
    %true = hw.constant true
    hw.output %true : i1
  }
}
// -----
// an older header of two results, one with a quoted name, and a dictionary
module {
  hw.module @M(in %a : i8, out "x y" : i8, out c : i8) attributes {k} {
    hw.output %a, %a : i8, i8
  }
}
