// RUN: circt opt --seq-lower-regs
// RUN: circt opt --hw-lower-aggregates --seq-lower-regs
// a register of an integer with enable and reset, which become muxes
module {
  hw.module @Reg(in %clk : !seq.clock, in %rst : i1, in %en : i1, in %d : i8, out q : i8) {
    %c9_i8 = hw.constant 9 : i8
    %r = seq.compreg.ce %d, %clk, %en reset %rst, %c9_i8 : i8
    hw.output %r : i8
  }
}
