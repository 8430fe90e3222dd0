// a register that its reset sets to 9
module {
  hw.module @T(in %clk : !seq.clock, in %rst : i1, in %d : i8, out q : i8) {
    %c9_i8 = hw.constant 9 : i8
    %r = seq.firreg %d clock %clk reset async %rst, %c9_i8 : i8
    hw.output %r : i8
  }
}
// -----
// a register in an instance, its reset joined to a module's own input
module {
  hw.module private @Reg(in %clk : !seq.clock, in %rst : i1, in %d : i8, out q : i8) {
    %c9_i8 = hw.constant 9 : i8
    %r = seq.firreg %d clock %clk reset async %rst, %c9_i8 : i8
    hw.output %r : i8
  }
  hw.module @Top(in %clk : !seq.clock, in %stop : i1, in %d : i8, out q : i8) {
    %u.q = hw.instance "u" @Reg(clk: %clk: !seq.clock, rst: %stop: i1, d: %d: i8) -> (q: i8)
    hw.output %u.q : i8
  }
}
// -----
// a reset that is also read as a value
module {
  hw.module @T(in %clk : !seq.clock, in %rst : i1, in %en : i1, in %d : i8, out q : i8, out p : i1) {
    %c9_i8 = hw.constant 9 : i8
    %r = seq.firreg %d clock %clk reset async %rst, %c9_i8 : i8
    %0 = comb.and %rst, %en : i1
    hw.output %r, %0 : i8, i1
  }
}
