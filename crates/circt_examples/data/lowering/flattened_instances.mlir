// RUN: circt opt --hw-lower-aggregates --hw-flatten-modules
// RUN: circt opt --hw-flatten-modules --hw-lower-aggregates
// an instance of a module with a register of a struct, lowered and flattened in either order
module {
  hw.module @T(in %clk : !seq.clock, in %s : !hw.struct<x: i8, y: i8>, out o : !hw.struct<x: i8, y: i8>) {
    %u.q = hw.instance "u" @R(clk: %clk: !seq.clock, d: %s: !hw.struct<x: i8, y: i8>) -> (q: !hw.struct<x: i8, y: i8>)
    hw.output %u.q : !hw.struct<x: i8, y: i8>
  }
  hw.module private @R(in %clk : !seq.clock, in %d : !hw.struct<x: i8, y: i8>, out q : !hw.struct<x: i8, y: i8>) {
    %r = seq.compreg %d, %clk : !hw.struct<x: i8, y: i8>
    hw.output %r : !hw.struct<x: i8, y: i8>
  }
}
