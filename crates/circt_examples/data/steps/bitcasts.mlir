// RUN: circt opt
// RUN: circt opt --hw-lower-aggregates
// RUN: circt opt --hw-lower-aggregates --seq-lower-regs
// RUN: circt opt --seq-lower-regs --hw-lower-aggregates --cse --canonicalize
// RUN: circt opt --canonicalize --hw-lower-aggregates --canonicalize
// RUN: circt opt --hw-flatten-modules --hw-lower-aggregates
// RUN: circt translate --export-verilog
// RUN: circt translate --export-verilog --hw-lower-aggregates
// RUN: circt translate --export-verilog --hw-lower-aggregates --hw-flatten-modules --seq-lower-regs
// RUN: circt translate --export-verilog --canonicalize --seq-lower-regs --hw-lower-aggregates --cse
// 16 bits as an array and as a struct: element 0 and the last field have the least significant bits
hw.module @B(in %x : i16, out h : i8, out s : !hw.struct<p: i8, q: i8>) {
  %i = hw.constant true
  %0 = hw.bitcast %x : (i16) -> !hw.array<2xi8>
  %1 = hw.array_get %0[%i] : !hw.array<2xi8>, i1
  %2 = hw.bitcast %x : (i16) -> !hw.struct<p: i8, q: i8>
  hw.output %1, %2 : i8, !hw.struct<p: i8, q: i8>
}
// -----
// three elements of 8 bits as two of 12
hw.module @T(in %a : !hw.array<3xi8>, out o : !hw.array<2xi12>) {
  %0 = hw.bitcast %a : (!hw.array<3xi8>) -> !hw.array<2xi12>
  hw.output %0 : !hw.array<2xi12>
}
// -----
// two elements of 12 bits as three of 8
hw.module @T(in %a : !hw.array<2xi12>, out o : !hw.array<3xi8>) {
  %0 = hw.bitcast %a : (!hw.array<2xi12>) -> !hw.array<3xi8>
  hw.output %0 : !hw.array<3xi8>
}
// -----
// fields 101, 10011 and 10100101 are 1011001 and 110100101
hw.module @T(in %s : !hw.struct<x: i3, y: i5, z: i8>, out o : !hw.struct<p: i7, q: i9>, out n : i16) {
  %0 = hw.bitcast %s : (!hw.struct<x: i3, y: i5, z: i8>) -> !hw.struct<p: i7, q: i9>
  %1 = hw.bitcast %0 : (!hw.struct<p: i7, q: i9>) -> i16
  hw.output %0, %1 : !hw.struct<p: i7, q: i9>, i16
}
// -----
// elements and a field 1010, 0101 and 00111100 are 10, 100101, 00 and 111100
hw.module @T(in %s : !hw.struct<p: !hw.array<2xi4>, q: i8>, out o : !hw.array<2x!hw.struct<u: i2, v: i6>>) {
  %0 = hw.bitcast %s : (!hw.struct<p: !hw.array<2xi4>, q: i8>) -> !hw.array<2x!hw.struct<u: i2, v: i6>>
  hw.output %0 : !hw.array<2x!hw.struct<u: i2, v: i6>>
}
// -----
// 32 and 32 digits of four bits are 25, 16 and 23
hw.module @T(in %a : !hw.array<2xi128>, out o : !hw.struct<x: i100, y: i64, z: i92>) {
  %0 = hw.bitcast %a : (!hw.array<2xi128>) -> !hw.struct<x: i100, y: i64, z: i92>
  hw.output %0 : !hw.struct<x: i100, y: i64, z: i92>
}
