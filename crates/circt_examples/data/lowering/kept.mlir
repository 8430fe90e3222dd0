// RUN: circt opt --hw-lower-aggregates
// an empty module
module {
  hw.module @T() {
    hw.output
  }
}
// -----
// operations on integers keep hints, dictionaries and the mark `bin`
module {
  hw.module @T(in %clk : !seq.clock, in %a : i8, in %b : i8, out o : i8) attributes {k} {
    %0 = comb.add bin %a, %b {sv.namehint = "sum"} : i8
    %w = hw.wire %0 {k} : i8
    %1 = hw.bitcast %w {sv.namehint = "same"} : (i8) -> i8
    %r = seq.compreg %1, %clk {k} : i8
    hw.output %r {e} : i8
  }
  hw.module private @P(in %_x_x "x x" : i1) {
    hw.output
  }
}
// -----
// operations on integers keep them beside a struct too
module {
  hw.module @T(in %a : i8, in %s : !hw.struct<x: i8>, out o : i8) attributes {k} {
    %0 = hw.struct_extract %s["x"] {sv.namehint = "part"} : !hw.struct<x: i8>
    %1 = comb.add bin %a, %0 {sv.namehint = "sum"} : i8
    %2 = hw.bitcast %1 {sv.namehint = "same"} : (i8) -> i8
    hw.output %2 {e} : i8
  }
}
// -----
// what is made of aggregates has neither a hint nor a dictionary nor the mark `bin`
module {
  hw.module @T(in %c : i1, in %a : !hw.array<1xi8>, out o : i8, out p : !hw.array<1xi8>) {
    %0 = hw.array_get %a[%c] {sv.namehint = "sel"} : !hw.array<1xi8>, i1
    %1 = comb.mux bin %c, %a, %a {k} : !hw.array<1xi8>
    %w = hw.wire %1 {k} : !hw.array<1xi8>
    %2 = hw.bitcast %w {k} : (!hw.array<1xi8>) -> !hw.array<1xi8>
    hw.output %0, %2 {e} : i8, !hw.array<1xi8>
  }
}
// -----
// what nothing uses is made all the same
module {
  hw.module @T(in %c : i1, in %a : !hw.array<1xi8>) {
    %0 = hw.array_get %a[%c] : !hw.array<1xi8>, i1
    %1 = hw.aggregate_constant [1 : i8, 2 : i8] : !hw.array<2xi8>
    hw.output
  }
}
