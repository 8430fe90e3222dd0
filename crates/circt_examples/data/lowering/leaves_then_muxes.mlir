// RUN: circt opt --hw-lower-aggregates --seq-lower-regs
// leaves first: the muxes of the enable and of the reset stand before each leaf
module {
  hw.module @T(in %clk : !seq.clock, in %rst : i1, in %en : i1, in %d : !hw.struct<x: i4, y: i4>, in %v : !hw.struct<x: i4, y: i4>, out q : !hw.struct<x: i4, y: i4>) {
    %r = seq.compreg.ce %d, %clk, %en reset %rst, %v : !hw.struct<x: i4, y: i4>
    hw.output %r : !hw.struct<x: i4, y: i4>
  }
}
