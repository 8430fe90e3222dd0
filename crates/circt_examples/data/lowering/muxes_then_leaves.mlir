// RUN: circt opt --pass-pipeline=builtin.module(hw.module(seq-lower-regs),hw-lower-aggregates)
// registers first: the muxes of the struct become those of its leaves, each in its place
module {
  hw.module @T(in %clk : !seq.clock, in %rst : i1, in %en : i1, in %d : !hw.struct<x: i4, y: i4>, in %v : !hw.struct<x: i4, y: i4>, out q : !hw.struct<x: i4, y: i4>) {
    %r = seq.compreg.ce %d, %clk, %en reset %rst, %v : !hw.struct<x: i4, y: i4>
    hw.output %r : !hw.struct<x: i4, y: i4>
  }
}
