// RUN: circt opt
// RUN: circt opt --hw-lower-aggregates
// RUN: circt opt --hw-lower-aggregates --seq-lower-regs
// RUN: circt opt --seq-lower-regs --hw-lower-aggregates --cse --canonicalize
// RUN: circt opt --canonicalize --hw-lower-aggregates --canonicalize
// RUN: circt opt --hw-flatten-modules --hw-lower-aggregates
// RUN: circt translate --export-verilog
// RUN: circt translate --export-verilog --hw-lower-aggregates
// RUN: circt translate --export-verilog --hw-lower-aggregates --hw-flatten-modules --seq-lower-regs
// RUN: circt translate --export-verilog --canonicalize --seq-lower-regs --hw-lower-aggregates --cse
// array_slice of two of two: the index and 1 is 2, past the end, though 0 in the index's one bit
hw.module @T(in %a : !hw.array<2xi8>, in %i : i1, out o : !hw.array<2xi8>) {
  %0 = hw.array_slice %a[%i] : (!hw.array<2xi8>) -> !hw.array<2xi8>
  hw.output %0 : !hw.array<2xi8>
}
// -----
// array_slice of two of three by an index of 2 bits
hw.module @T(in %a : !hw.array<3xi8>, in %i : i2, out o : !hw.array<2xi8>) {
  %0 = hw.array_slice %a[%i] : (!hw.array<3xi8>) -> !hw.array<2xi8>
  hw.output %0 : !hw.array<2xi8>
}
// -----
// array_slice of five of five: from index 7 on elements 7 to 11, though 0 to 3 in its three bits after the first
hw.module @T(in %a : !hw.array<5xi4>, in %i : i3, out o : !hw.array<5xi4>) {
  %0 = hw.array_slice %a[%i] : (!hw.array<5xi4>) -> !hw.array<5xi4>
  hw.output %0 : !hw.array<5xi4>
}
