// two instances of a register with enable and reset, one after the other
module {
  hw.module private @Reg(in %clk : !seq.clock, in %rst : i1, in %en : i1, in %d : i8, out q : i8) {
    %c9_i8 = hw.constant 9 : i8
    %r = seq.compreg.ce %d, %clk, %en reset %rst, %c9_i8 : i8
    hw.output %r : i8
  }
  hw.module @Two(in %clk : !seq.clock, in %rst : i1, in %en : i1, in %d : i8, out a : i8, out b : i8) {
    %u1.q = hw.instance "u1" @Reg(clk: %clk: !seq.clock, rst: %rst: i1, en: %en: i1, d: %d: i8) -> (q: i8)
    %u2.q = hw.instance "u2" @Reg(clk: %clk: !seq.clock, rst: %rst: i1, en: %en: i1, d: %u1.q: i8) -> (q: i8)
    hw.output %u1.q, %u2.q : i8, i8
  }
}
