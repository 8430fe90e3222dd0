// RUN: circt opt --canonicalize
// a mux of a constant condition is one side
module {
  hw.module @T(in %a : i8, in %b : i8, in %c : i128, in %d : i128, out o : i8, out p : i8, out q : i128) {
    %true = hw.constant true
    %false = hw.constant false
    %0 = comb.mux %true, %a, %b : i8
    %1 = comb.mux %false, %a, %b {k} : i8
    %2 = comb.mux %false, %c, %d : i128
    hw.output %0, %1, %2 : i8, i8, i128
  }
}
// -----
// a mux of aggregates with a constant condition is one side
module {
  hw.module @T(in %s : !hw.struct<x: i8, y: i1>, in %t : !hw.struct<x: i8, y: i1>, out o : !hw.struct<x: i8, y: i1>, out p : !hw.array<2xi8>) {
    %true = hw.constant true
    %0 = hw.aggregate_constant [1 : i8, 2 : i8] : !hw.array<2xi8>
    %1 = hw.aggregate_constant [3 : i8, 4 : i8] : !hw.array<2xi8>
    %2 = comb.mux %true, %s, %t : !hw.struct<x: i8, y: i1>
    %3 = comb.mux %true, %0, %1 : !hw.array<2xi8>
    hw.output %2, %3 : !hw.struct<x: i8, y: i1>, !hw.array<2xi8>
  }
}
// -----
// a mux of one value on both sides is that value
module {
  hw.module @T(in %c : i1, in %a : i8, in %s : !hw.struct<x: i8>, out o : i8, out p : i1, out q : !hw.struct<x: i8>) {
    %0 = comb.mux %c, %a, %a : i8
    %1 = comb.mux %c, %c, %c : i1
    %2 = comb.mux %c, %s, %s : !hw.struct<x: i8>
    hw.output %0, %1, %2 : i8, i1, !hw.struct<x: i8>
  }
}
// -----
// a mux of a register on both sides, then a mux of that and the register
module {
  hw.module @T(in %clk : !seq.clock, in %c : i1, in %a : i128, out o : i128) {
    %0 = comb.mux %c, %r, %r : i128
    %1 = comb.mux %c, %0, %r : i128
    %r = seq.compreg %1, %clk : i128
    hw.output %1 : i128
  }
}
// -----
// a mux of true and false is its condition
module {
  hw.module @T(in %c : i1, in %a : i8, out o : i1, out p : i1) {
    %true = hw.constant true
    %false = hw.constant false
    %0 = comb.mux %c, %true, %false : i1
    %1 = comb.icmp ult %a, %2 : i8
    %2 = comb.add %a, %a : i8
    %3 = comb.mux %1, %true, %false : i1
    hw.output %0, %3 : i1, i1
  }
}
// -----
// a mux of true and false, however they are written, twice
module {
  hw.module @T(in %c : i1, out o : i1) {
    %0 = hw.constant 1 : i1
    %1 = hw.constant -1 : i1
    %2 = hw.constant 0 : i1
    %3 = comb.mux %c, %0, %2 : i1
    %4 = comb.mux %3, %1, %2 : i1
    hw.output %4 : i1
  }
}
// -----
// muxes stay: false and true, and 1 and 0 of more bits
module {
  hw.module @T(in %c : i1, out o : i1, out p : i8) {
    %true = hw.constant true
    %false = hw.constant false
    %c1_i8 = hw.constant 1 : i8
    %c0_i8 = hw.constant 0 : i8
    %0 = comb.mux %c, %false, %true : i1
    %1 = comb.mux %c, %c1_i8, %c0_i8 : i8
    hw.output %0, %1 : i1, i8
  }
}
// -----
// muxes stay: two constants of one value, and a wire of a constant as condition
module {
  hw.module @T(in %c : i1, in %a : i8, in %b : i8, out o : i8, out p : i8, out q : i8) {
    %c5_i8 = hw.constant 5 : i8
    %c5_i8_0 = hw.constant 5 : i8
    %true = hw.constant true
    %w = hw.wire %true : i1
    %0 = comb.mux %c, %c5_i8, %c5_i8_0 : i8
    %1 = comb.mux %w, %a, %b : i8
    %2 = comb.mux %c, %a, %b : i8
    hw.output %0, %1, %2 : i8, i8, i8
  }
}
