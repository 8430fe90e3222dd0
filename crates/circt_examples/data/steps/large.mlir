// RUN: circt opt
// RUN: circt opt --hw-lower-aggregates
// RUN: circt translate --export-verilog
// an array of 1,024 elements, the remainders of their numbers modulo 16
hw.module @T(in %a : !hw.array<1024xi4>, out o : !hw.array<1024xi4>) {
  hw.output %a : !hw.array<1024xi4>
}
// -----
// an element of 1,024 by its number
hw.module @T(in %a : !hw.array<1024xi4>, in %i : i10, out o : i4) {
  %0 = hw.array_get %a[%i] : !hw.array<1024xi4>, i10
  hw.output %0 : i4
}
// -----
// 4,096 bits as integers of 128 bits and as integers of four
hw.module @T(in %a : !hw.array<32xi128>, out o : !hw.array<1024xi4>) {
  %0 = hw.bitcast %a : (!hw.array<32xi128>) -> !hw.array<1024xi4>
  hw.output %0 : !hw.array<1024xi4>
}
