// a register of an integer with enable and reset, which become muxes
module {
  hw.module @Reg(in %clk : !seq.clock, in %rst : i1, in %en : i1, in %d : i8, out q : i8) {
    %c9_i8 = hw.constant 9 : i8
    %0 = comb.mux %en, %d, %r : i8
    %1 = comb.mux %rst, %c9_i8, %0 : i8
    %r = seq.compreg %1, %clk : i8
    hw.output %r : i8
  }
}
