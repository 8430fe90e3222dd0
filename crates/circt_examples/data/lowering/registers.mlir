// RUN: circt opt --hw-lower-aggregates
// a register of an array of one element
module {
  hw.module @T(in %clk : !seq.clock, in %d : !hw.array<1xi8>, out q : !hw.array<1xi8>) {
    %r = seq.compreg %d, %clk : !hw.array<1xi8>
    hw.output %r : !hw.array<1xi8>
  }
}
// -----
// a register of an array with enable and reset
module {
  hw.module @T(in %clk : !seq.clock, in %rst : i1, in %en : i1, in %d : !hw.array<2xi8>, in %v : !hw.array<2xi8>, out q : !hw.array<2xi8>) {
    %r = seq.compreg.ce %d, %clk, %en reset %rst, %v : !hw.array<2xi8>
    hw.output %r : !hw.array<2xi8>
  }
}
// -----
// a register with an enable, and one with a reset
module {
  hw.module @T(in %clk : !seq.clock, in %en : i1, in %d : !hw.array<3xi1>, out q : !hw.array<3xi1>, out p : !hw.array<3xi1>) {
    %r = seq.compreg.ce %d, %clk, %en : !hw.array<3xi1>
    %s = seq.compreg %r, %clk reset %en, %d : !hw.array<3xi1>
    hw.output %r, %s : !hw.array<3xi1>, !hw.array<3xi1>
  }
}
// -----
// a seq.firreg of five elements with a synchronous reset
module {
  hw.module @T(in %clk : !seq.clock, in %rst : i1, in %d : !hw.array<5xi2>, out q : !hw.array<5xi2>) {
    %r = seq.firreg %d clock %clk reset sync %rst, %d : !hw.array<5xi2>
    hw.output %r : !hw.array<5xi2>
  }
}
// -----
// a seq.firreg with an asynchronous reset, whose value is a constant for each leaf
module {
  hw.module @T(in %clk : !seq.clock, in %rst : i1, in %d : !hw.struct<x: i8, y: !hw.array<2xi4>>, out q : !hw.struct<x: i8, y: !hw.array<2xi4>>) {
    %r = seq.firreg %d clock %clk reset async %rst, %0 : !hw.struct<x: i8, y: !hw.array<2xi4>>
    %0 = hw.aggregate_constant [1 : i8, [2 : i4, 3 : i4]] : !hw.struct<x: i8, y: !hw.array<2xi4>>
    hw.output %r : !hw.struct<x: i8, y: !hw.array<2xi4>>
  }
}
// -----
// a seq.firreg without a name, and with a dictionary, which goes
module {
  hw.module @T(in %clk : !seq.clock, in %d : !hw.struct<x: i4, y: i4>, out q : !hw.struct<x: i4, y: i4>) {
    %0 = seq.firreg %d clock %clk {k, sv.namehint = "h"} : !hw.struct<x: i4, y: i4>
    hw.output %0 : !hw.struct<x: i4, y: i4>
  }
}
// -----
// registers that take one another's values, changed
module {
  hw.module @T(in %clk : !seq.clock, in %i : i1, in %v : i8, out q : !hw.array<2xi8>) {
    %r = seq.compreg %0, %clk : !hw.array<2xi8>
    %0 = hw.array_inject %s[%i], %v : !hw.array<2xi8>, i1
    %s = seq.compreg %r, %clk : !hw.array<2xi8>
    hw.output %s : !hw.array<2xi8>
  }
}
// -----
// names of a register's leaves that are taken
module {
  hw.module @T(in %clk : !seq.clock, in %d : !hw.struct<x: i4>, in %e : i4) {
    %r = seq.compreg %d, %clk : !hw.struct<x: i4>
    %r_x = seq.compreg %e, %clk : i4
    hw.output
  }
}
// -----
// a register of an integer beside them, with operands that lowered operations gave, keeps its dictionary
module {
  hw.module @T(in %clk : !seq.clock, in %s : !hw.struct<d: i8, en: i1, rst: i1, v: i8>, out q : i8) {
    %0:4 = hw.struct_explode %s : !hw.struct<d: i8, en: i1, rst: i1, v: i8>
    %r = seq.compreg.ce %0#0, %clk, %0#1 reset %0#2, %0#3 {k} : i8
    hw.output %r : i8
  }
}
