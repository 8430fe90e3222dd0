// RUN: circt opt
// RUN: circt opt --hw-lower-aggregates
// RUN: circt opt --hw-lower-aggregates --seq-lower-regs
// RUN: circt opt --seq-lower-regs --hw-lower-aggregates --cse --canonicalize
// RUN: circt opt --canonicalize --hw-lower-aggregates --canonicalize
// RUN: circt opt --hw-flatten-modules --hw-lower-aggregates
// RUN: circt translate --export-verilog
// RUN: circt translate --export-verilog --hw-lower-aggregates
// RUN: circt translate --export-verilog --hw-lower-aggregates --hw-flatten-modules --seq-lower-regs
// RUN: circt translate --export-verilog --canonicalize --seq-lower-regs --hw-lower-aggregates --cse
// element 0 stands last: the elements from the highest are a, b, 5, 6, 7, and c is 1
hw.module @T(in %a : i8, in %b : i8, in %c : i8, in %i : i3, out o : i8) {
  %0 = hw.array_create %a, %b : i8
  %1 = hw.aggregate_constant [5 : i8, 6 : i8, 7 : i8] : !hw.array<3xi8>
  %2 = hw.array_concat %0, %1 : !hw.array<2xi8>, !hw.array<3xi8>
  %3 = hw.array_get %2[%i] : !hw.array<5xi8>, i3
  %4 = comb.add %3, %c : i8
  hw.output %4 : i8
}
// -----
// the difference of the second and the first field, the struct below
hw.module @T(in %s : !hw.struct<x: i8, y: i8>, out c : i8) {
  %1 = comb.sub %f#1, %f#0 : i8
  %f:2 = hw.struct_explode %s : !hw.struct<x: i8, y: i8>
  hw.output %1 : i8
}
// -----
// an element of a field, changed by one of two arrays
hw.module @T(in %s : !hw.struct<p: i4, q: !hw.array<2x!hw.struct<x: i8, y: i1>>>, in %i : i1, in %c : i1, in %v : i8, out o : !hw.struct<p: i4, q: !hw.array<2x!hw.struct<x: i8, y: i1>>>) {
  %0 = hw.struct_extract %s["q"] : !hw.struct<p: i4, q: !hw.array<2x!hw.struct<x: i8, y: i1>>>
  %1 = hw.array_get %0[%i] : !hw.array<2x!hw.struct<x: i8, y: i1>>, i1
  %2 = hw.struct_inject %1["x"], %v : !hw.struct<x: i8, y: i1>
  %3 = hw.array_inject %0[%i], %2 : !hw.array<2x!hw.struct<x: i8, y: i1>>, i1
  %4 = comb.mux %c, %3, %0 : !hw.array<2x!hw.struct<x: i8, y: i1>>
  %w = hw.wire %4 : !hw.array<2x!hw.struct<x: i8, y: i1>>
  %5 = hw.struct_extract %s["p"] : !hw.struct<p: i4, q: !hw.array<2x!hw.struct<x: i8, y: i1>>>
  %6 = hw.struct_create (%5, %w) : !hw.struct<p: i4, q: !hw.array<2x!hw.struct<x: i8, y: i1>>>
  hw.output %6 : !hw.struct<p: i4, q: !hw.array<2x!hw.struct<x: i8, y: i1>>>
}
// -----
// an instance before its module, which makes a_0, a[1] and a[0] of a[1], a[0] and a_0, and one of its results
hw.module @T(in %a : !hw.array<2xi8>, in %b : i8, out o : !hw.array<2xi8>, out p : i8) {
  %u.x, %u.x_0 = hw.instance "u" @C(a: %a: !hw.array<2xi8>, a_0: %b: i8) -> (x: !hw.array<2xi8>, x_0: i8)
  %v.x, %v.x_0 = hw.instance "v" @C(a: %u.x: !hw.array<2xi8>, a_0: %u.x_0: i8) -> (x: !hw.array<2xi8>, x_0: i8)
  hw.output %v.x, %v.x_0 : !hw.array<2xi8>, i8
}
hw.module private @C(in %a : !hw.array<2xi8>, in %a_0 : i8, out x : !hw.array<2xi8>, out x_0 : i8) {
  %k0 = hw.constant false
  %k1 = hw.constant true
  %0 = hw.array_get %a[%k0] : !hw.array<2xi8>, i1
  %1 = hw.array_get %a[%k1] : !hw.array<2xi8>, i1
  %2 = hw.array_create %a_0, %1 : i8
  hw.output %2, %0 : !hw.array<2xi8>, i8
}
