// RUN: circt opt
// RUN: circt opt --hw-lower-aggregates
// RUN: circt opt --hw-lower-aggregates --seq-lower-regs
// RUN: circt opt --seq-lower-regs --hw-lower-aggregates --cse --canonicalize
// RUN: circt opt --canonicalize --hw-lower-aggregates --canonicalize
// RUN: circt opt --hw-flatten-modules --hw-lower-aggregates
// RUN: circt translate --export-verilog
// RUN: circt translate --export-verilog --hw-lower-aggregates
// RUN: circt translate --export-verilog --hw-lower-aggregates --hw-flatten-modules --seq-lower-regs
// RUN: circt translate --export-verilog --canonicalize --seq-lower-regs --hw-lower-aggregates --cse
// a register loads where its clock rises: its reset's value, else nothing where its enable is 0, else its next value
hw.module @T(in %clk : !seq.clock, in %rst : i1, in %en : i1, in %d : !hw.struct<x: i8, y: i4>, in %v : !hw.struct<x: i8, y: i4>, out q : !hw.struct<x: i8, y: i4>) {
  %r = seq.compreg.ce %d, %clk, %en reset %rst, %v : !hw.struct<x: i8, y: i4>
  hw.output %r : !hw.struct<x: i8, y: i4>
}
// -----
// a synchronous reset of an array loads its constant where the clock rises
hw.module @T(in %clk : !seq.clock, in %rst : i1, in %d : !hw.array<2xi8>, out q : !hw.array<2xi8>) {
  %z = hw.aggregate_constant [9 : i8, 10 : i8] : !hw.array<2xi8>
  %r = seq.firreg %d clock %clk reset sync %rst, %z : !hw.array<2xi8>
  hw.output %r : !hw.array<2xi8>
}
// -----
// an asynchronous reset loads where it becomes 1, and outputs are read after it
hw.module @T(in %clk : !seq.clock, in %rst : i1, in %d : !hw.array<2xi8>, out q : !hw.array<2xi8>) {
  %z = hw.aggregate_constant [9 : i8, 10 : i8] : !hw.array<2xi8>
  %r = seq.firreg %d clock %clk reset async %rst, %z : !hw.array<2xi8>
  hw.output %r : !hw.array<2xi8>
}
// -----
// an element is written and one is read; past the end nothing is written, and 0 is read
hw.module @T(in %clk : !seq.clock, in %w : i2, in %v : i8, in %i : i2, out o : i8) {
  %r = seq.compreg %0, %clk : !hw.array<3xi8>
  %0 = hw.array_inject %r[%w], %v : !hw.array<3xi8>, i2
  %1 = hw.array_get %r[%i] : !hw.array<3xi8>, i2
  hw.output %1 : i8
}
// -----
// a mux before a register, seen through a wire
hw.module @T(in %clk : !seq.clock, in %c : i1, in %a : !hw.array<2xi4>, out o : !hw.array<2xi4>) {
  %0 = comb.mux %c, %a, %r : !hw.array<2xi4>
  %w = hw.wire %0 : !hw.array<2xi4>
  %r = seq.compreg %w, %clk : !hw.array<2xi4>
  hw.output %w : !hw.array<2xi4>
}
// -----
// registers in two instances, each with the fields swapped
hw.module @T(in %clk : !seq.clock, in %d : !hw.struct<x: i8, y: i8>, out o : !hw.struct<x: i8, y: i8>) {
  %u.q = hw.instance "u" @R(clk: %clk: !seq.clock, d: %d: !hw.struct<x: i8, y: i8>) -> (q: !hw.struct<x: i8, y: i8>)
  %v.q = hw.instance "v" @R(clk: %clk: !seq.clock, d: %u.q: !hw.struct<x: i8, y: i8>) -> (q: !hw.struct<x: i8, y: i8>)
  hw.output %v.q : !hw.struct<x: i8, y: i8>
}
hw.module private @R(in %clk : !seq.clock, in %d : !hw.struct<x: i8, y: i8>, out q : !hw.struct<x: i8, y: i8>) {
  %r = seq.compreg %0, %clk : !hw.struct<x: i8, y: i8>
  %0 = hw.struct_create (%1#1, %1#0) : !hw.struct<x: i8, y: i8>
  %1:2 = hw.struct_explode %d : !hw.struct<x: i8, y: i8>
  hw.output %r : !hw.struct<x: i8, y: i8>
}
