// RUN: circt translate --export-verilog
// RUN: circt translate --export-verilog --hw-lower-aggregates
// an element of an array of three
hw.module @Pick(in %a : !hw.array<3xi8>, in %i : i2, out c : i8) {
  %0 = hw.array_get %a[%i] : !hw.array<3xi8>, i2
  hw.output %0 : i8
}
// -----
// a struct taken apart below where its fields are used
hw.module @E(in %s : !hw.struct<x: i8, y: i8>, out c : i8) {
  %1 = comb.sub %f#1, %f#0 : i8
  %f:2 = hw.struct_explode %s : !hw.struct<x: i8, y: i8>
  hw.output %1 : i8
}
// -----
// 16 bits to an array of two and to a struct
hw.module @B(in %x : i16, out h : i8, out s : !hw.struct<p: i8, q: i8>) {
  %i = hw.constant true
  %0 = hw.bitcast %x : (i16) -> !hw.array<2xi8>
  %1 = hw.array_get %0[%i] : !hw.array<2xi8>, i1
  %2 = hw.bitcast %x : (i16) -> !hw.struct<p: i8, q: i8>
  hw.output %1, %2 : i8, !hw.struct<p: i8, q: i8>
}
// -----
// a register of a struct
hw.module @L(in %clk : !seq.clock, in %d : !hw.struct<x: i4, y: i4>, out q : !hw.struct<x: i4, y: i4>) {
  %r = seq.compreg %d, %clk : !hw.struct<x: i4, y: i4>
  hw.output %r : !hw.struct<x: i4, y: i4>
}
// -----
// an element of two leaves, which share the tests
hw.module @T(in %a : !hw.array<2x!hw.struct<x: i8, y: i4>>, in %i : i1, out o : !hw.struct<x: i8, y: i4>) {
  %0 = hw.array_get %a[%i] : !hw.array<2x!hw.struct<x: i8, y: i4>>, i1
  hw.output %0 : !hw.struct<x: i8, y: i4>
}
// -----
// a register of an array with enable and reset
hw.module @T(in %clk : !seq.clock, in %rst : i1, in %en : i1, in %d : !hw.array<2xi1>, in %v : !hw.array<2xi1>) {
  %r = seq.compreg.ce %d, %clk, %en reset %rst, %v : !hw.array<2xi1>
}
// -----
// a register of a struct with an asynchronous reset, without a name
hw.module @T(in %clk : !seq.clock, in %rst : i1, in %d : !hw.struct<x: i8, y: i1>, out q : !hw.struct<x: i8, y: i1>) {
  %0 = seq.firreg %d clock %clk reset async %rst, %1 : !hw.struct<x: i8, y: i1>
  %1 = hw.aggregate_constant [170 : i8, true] : !hw.struct<x: i8, y: i1>
  hw.output %0 : !hw.struct<x: i8, y: i1>
}
// -----
// names of leaves are made distinct first, and legal afterwards
hw.module @T(in %pulsestyle : !hw.struct<onevent: i1>, in %pulsestyle_onevent : i1, out o : i1) {
  %0 = hw.struct_extract %pulsestyle["onevent"] : !hw.struct<onevent: i1>
  %1 = comb.and %0, %pulsestyle_onevent : i1
  hw.output %1 : i1
}
// -----
// a bitcast of one leaf to one leaf is an extract, which has a wire where it has two uses
hw.module @T(in %s : !hw.struct<x: i8>, out c : i8, out d : i8) {
  %0 = hw.bitcast %s : (!hw.struct<x: i8>) -> i8
  hw.output %0, %0 : i8, i8
}
