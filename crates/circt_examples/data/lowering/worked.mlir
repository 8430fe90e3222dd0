// RUN: circt opt --hw-lower-aggregates
// RUN: circt opt --pass-pipeline=builtin.module(hw-lower-aggregates,symbol-dce,hw-lower-aggregates)
// an element of an array of three
module {
  hw.module @Pick(in %a : !hw.array<3xi8>, in %i : i2, out c : i8) {
    %0 = hw.array_get %a[%i] : !hw.array<3xi8>, i2
    hw.output %0 : i8
  }
}
// -----
// a struct taken apart below where its fields are used
module {
  hw.module @E(in %s : !hw.struct<x: i8, y: i8>, out c : i8) {
    %0 = comb.sub %1#1, %1#0 : i8
    %1:2 = hw.struct_explode %s : !hw.struct<x: i8, y: i8>
    hw.output %0 : i8
  }
}
// -----
// 16 bits to an array of two and to a struct
module {
  hw.module @B(in %x : i16, out h : i8, out s : !hw.struct<p: i8, q: i8>) {
    %true = hw.constant true
    %0 = hw.bitcast %x : (i16) -> !hw.array<2xi8>
    %1 = hw.array_get %0[%true] : !hw.array<2xi8>, i1
    %2 = hw.bitcast %x : (i16) -> !hw.struct<p: i8, q: i8>
    hw.output %1, %2 : i8, !hw.struct<p: i8, q: i8>
  }
}
// -----
// a register of a struct
module {
  hw.module @L(in %clk : !seq.clock, in %d : !hw.struct<x: i4, y: i4>, out q : !hw.struct<x: i4, y: i4>) {
    %r = seq.compreg %d, %clk : !hw.struct<x: i4, y: i4>
    hw.output %r : !hw.struct<x: i4, y: i4>
  }
}
// -----
// a register of an integer has one leaf
module {
  hw.module @Reg(in %clk : !seq.clock, in %rst : i1, in %en : i1, in %d : i8, out q : i8) {
    %c9_i8 = hw.constant 9 : i8
    %r = seq.compreg.ce %d, %clk, %en reset %rst, %c9_i8 : i8
    hw.output %r : i8
  }
}
