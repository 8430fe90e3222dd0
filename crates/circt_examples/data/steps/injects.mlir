// RUN: circt opt
// RUN: circt opt --hw-lower-aggregates
// RUN: circt opt --hw-lower-aggregates --seq-lower-regs
// RUN: circt opt --seq-lower-regs --hw-lower-aggregates --cse --canonicalize
// RUN: circt opt --canonicalize --hw-lower-aggregates --canonicalize
// RUN: circt opt --hw-flatten-modules --hw-lower-aggregates
// RUN: circt translate --export-verilog
// RUN: circt translate --export-verilog --hw-lower-aggregates
// RUN: circt translate --export-verilog --hw-lower-aggregates --hw-flatten-modules --seq-lower-regs
// RUN: circt translate --export-verilog --canonicalize --seq-lower-regs --hw-lower-aggregates --cse
// array_inject of one struct: past the end nothing is put in
hw.module @T(in %a : !hw.array<1x!hw.struct<x: i8, y: i4>>, in %i : i1, in %v : !hw.struct<x: i8, y: i4>, out o : !hw.array<1x!hw.struct<x: i8, y: i4>>) {
  %0 = hw.array_inject %a[%i], %v : !hw.array<1x!hw.struct<x: i8, y: i4>>, i1
  hw.output %0 : !hw.array<1x!hw.struct<x: i8, y: i4>>
}
// -----
// array_inject of three elements by an index of 2 bits
hw.module @T(in %a : !hw.array<3xi8>, in %i : i2, in %v : i8, out o : !hw.array<3xi8>) {
  %0 = hw.array_inject %a[%i], %v : !hw.array<3xi8>, i2
  hw.output %0 : !hw.array<3xi8>
}
// -----
// array_inject of five elements by an index of 3 bits
hw.module @T(in %a : !hw.array<5xi4>, in %i : i3, in %v : i4, out o : !hw.array<5xi4>) {
  %0 = hw.array_inject %a[%i], %v : !hw.array<5xi4>, i3
  hw.output %0 : !hw.array<5xi4>
}
