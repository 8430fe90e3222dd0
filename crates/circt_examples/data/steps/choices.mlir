// RUN: circt opt
// RUN: circt opt --hw-lower-aggregates
// RUN: circt opt --hw-lower-aggregates --seq-lower-regs
// RUN: circt opt --seq-lower-regs --hw-lower-aggregates --cse --canonicalize
// RUN: circt opt --canonicalize --hw-lower-aggregates --canonicalize
// RUN: circt opt --hw-flatten-modules --hw-lower-aggregates
// RUN: circt translate --export-verilog
// RUN: circt translate --export-verilog --hw-lower-aggregates
// RUN: circt translate --export-verilog --hw-lower-aggregates --hw-flatten-modules --seq-lower-regs
// RUN: circt translate --export-verilog --canonicalize --seq-lower-regs --hw-lower-aggregates --cse
// array_get of one element: past the end an element is 0
hw.module @T(in %a : !hw.array<1xi8>, in %i : i1, out o : i8) {
  %0 = hw.array_get %a[%i] : !hw.array<1xi8>, i1
  hw.output %0 : i8
}
// -----
// array_get of three elements by an index of 2 bits
hw.module @T(in %a : !hw.array<3xi8>, in %i : i2, out o : i8) {
  %0 = hw.array_get %a[%i] : !hw.array<3xi8>, i2
  hw.output %0 : i8
}
// -----
// array_get of five structs by an index of 3 bits
hw.module @T(in %a : !hw.array<5x!hw.struct<x: i4, y: i1>>, in %i : i3, out o : !hw.struct<x: i4, y: i1>) {
  %0 = hw.array_get %a[%i] : !hw.array<5x!hw.struct<x: i4, y: i1>>, i3
  hw.output %0 : !hw.struct<x: i4, y: i1>
}
