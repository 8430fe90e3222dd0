// RUN: circt opt --canonicalize
// an unused sum is removed
module {
  hw.module @T(in %a : i8, in %b : i8, out o : i8) {
    %0 = comb.add %a, %b : i8
    hw.output %a : i8
  }
}
// -----
// unused operations, each used by the one after it alone, are removed
module {
  hw.module @T(in %a : i128, in %b : i128, out o : i128) {
    %0 = comb.sub %a, %b : i128
    %1 = comb.mul %0, %b : i128
    %2 = comb.parity %1 : i128
    hw.output %a : i128
  }
}
// -----
// unused operations on aggregates, and unused constants, are removed
module {
  hw.module @T(in %a : i1, in %s : !hw.struct<x: i8, y: i8>) {
    %true = hw.constant true {k}
    %0 = hw.aggregate_constant [1 : i8, 2 : i8] : !hw.array<2xi8>
    %1:2 = hw.struct_explode %s : !hw.struct<x: i8, y: i8>
    %2 = hw.array_get %0[%a] : !hw.array<2xi8>, i1
    %3 = hw.bitcast %s : (!hw.struct<x: i8, y: i8>) -> i16
    hw.output
  }
}
// -----
// an operation of several results stays where one of them is used
module {
  hw.module @T(in %s : !hw.struct<x: i8, y: i8>, out o : i8) {
    %0:2 = hw.struct_explode %s : !hw.struct<x: i8, y: i8>
    hw.output %0#1 : i8
  }
}
// -----
// registers, wires and instances stay though unused, and what they use
module {
  hw.module @T(in %clk : !seq.clock, in %a : i8, in %b : i8) {
    %0 = comb.add %a, %b : i8
    %1 = comb.sub %a, %b : i8
    %2 = comb.xor %a, %b : i8
    %r = seq.compreg %0, %clk : i8
    %s = seq.firreg %a clock %clk : i8
    %w = hw.wire %1 : i8
    %u.o = hw.instance "u" @U(i: %2: i8) -> (o: i8)
    hw.output
  }
  hw.module private @U(in %i : i8, out o : i8) {
    hw.output %i : i8
  }
}
// -----
// a register that nothing else uses stays with what it feeds itself by
module {
  hw.module @T(in %clk : !seq.clock, in %a : i8) {
    %0 = comb.sub %r, %a : i8
    %r = seq.compreg %0, %clk : i8
    hw.output
  }
}
// -----
// each module is folded on its own
module {
  hw.module @T(in %a : i8, out o : i8) {
    %0 = comb.add %a, %a : i8
    %u.o = hw.instance "u" @U(i: %a: i8) -> (o: i8)
    hw.output %u.o : i8
  }
  hw.module private @U(in %i : i8, out o : i8) {
    %0 = comb.sub %i, %i : i8
    hw.output %i : i8
  }
  hw.module private @V(in %i : i8) {
    %0 = comb.sub %i, %i : i8
    hw.output
  }
}
// -----
// sums of constants: 100 + 200, 3 * 200, true + true, and all ones + 1
module {
  hw.module @T(out o : i8, out p : i8, out q : i1, out r : i128) {
    %c100_i8 = hw.constant 100 : i8
    %c-56_i8 = hw.constant -56 : i8
    %true = hw.constant true
    %c-1_i128 = hw.constant -1 : i128
    %c1_i128 = hw.constant 1 : i128
    %0 = comb.add %c100_i8, %c-56_i8 : i8
    %1 = comb.add %c-56_i8, %c-56_i8, %c-56_i8 : i8
    %2 = comb.add %true, %true : i1
    %3 = comb.add %c-1_i128, %c1_i128 : i128
    hw.output %0, %1, %2, %3 : i8, i8, i1, i128
  }
}
// -----
// products and differences of constants that wrap, at 8 and 128 bits
module {
  hw.module @T(out o : i8, out p : i8, out q : i128, out r : i8, out s : i128) {
    %c-128_i8 = hw.constant -128 : i8
    %c-1_i8 = hw.constant -1 : i8
    %c16_i8 = hw.constant 16 : i8
    %c-1_i128 = hw.constant -1 : i128
    %c0_i128 = hw.constant 0 : i128
    %c-170141183460469231731687303715884105728_i128 = hw.constant -170141183460469231731687303715884105728 : i128
    %0 = comb.mul %c-128_i8, %c-1_i8 : i8
    %1 = comb.mul %c16_i8, %c16_i8 : i8
    %2 = comb.mul %c-1_i128, %c-1_i128 : i128
    %3 = comb.sub %c-128_i8, %c-1_i8 : i8
    %4 = comb.sub %c0_i128, %c-170141183460469231731687303715884105728_i128 : i128
    hw.output %0, %1, %2, %3, %4 : i8, i8, i128, i8, i128
  }
}
// -----
// and, or, xor of constants, of two, three and one operand
module {
  hw.module @T(out o : i8, out p : i8, out q : i8, out r : i8, out s : i8) {
    %c85_i8 = hw.constant 85 : i8
    %c15_i8 = hw.constant 15 : i8
    %0 = comb.and %c85_i8, %c15_i8 : i8
    %1 = comb.or %c85_i8, %c15_i8 : i8
    %2 = comb.xor %c85_i8, %c15_i8 : i8
    %3 = comb.xor %c85_i8, %c15_i8, %c85_i8 : i8
    %4 = comb.and %c85_i8 : i8
    hw.output %0, %1, %2, %3, %4 : i8, i8, i8, i8, i8
  }
}
// -----
// the least number by -1 wraps, and its remainder is 0; so for one bit
module {
  hw.module @T(out o : i8, out p : i8, out q : i1, out r : i1, out s : i128) {
    %c-128_i8 = hw.constant -128 : i8
    %c-1_i8 = hw.constant -1 : i8
    %true = hw.constant true
    %c-170141183460469231731687303715884105728_i128 = hw.constant -170141183460469231731687303715884105728 : i128
    %c-1_i128 = hw.constant -1 : i128
    %0 = comb.divs %c-128_i8, %c-1_i8 : i8
    %1 = comb.mods %c-128_i8, %c-1_i8 : i8
    %2 = comb.divs %true, %true : i1
    %3 = comb.mods %true, %true : i1
    %4 = comb.divs %c-170141183460469231731687303715884105728_i128, %c-1_i128 : i128
    hw.output %0, %1, %2, %3, %4 : i8, i8, i1, i1, i128
  }
}
// -----
// division and remainder of constants: -7 by 2, and 249 by 2
module {
  hw.module @T(out o : i8, out p : i8, out q : i8, out r : i8) {
    %c-7_i8 = hw.constant -7 : i8
    %c2_i8 = hw.constant 2 : i8
    %0 = comb.divs %c-7_i8, %c2_i8 : i8
    %1 = comb.mods %c-7_i8, %c2_i8 : i8
    %2 = comb.divu %c-7_i8, %c2_i8 : i8
    %3 = comb.modu %c-7_i8, %c2_i8 : i8
    hw.output %0, %1, %2, %3 : i8, i8, i8, i8
  }
}
// -----
// shifts of constants by the width less 1, by the width, and by all ones
module {
  hw.module @T(out o : i8, out p : i8, out q : i8, out r : i8, out s : i8, out t : i8) {
    %c1_i8 = hw.constant 1 : i8
    %c7_i8 = hw.constant 7 : i8
    %c8_i8 = hw.constant 8 : i8
    %c-1_i8 = hw.constant -1 : i8
    %c-128_i8 = hw.constant -128 : i8
    %0 = comb.shl %c1_i8, %c7_i8 : i8
    %1 = comb.shl %c1_i8, %c8_i8 : i8
    %2 = comb.shru %c-1_i8, %c7_i8 : i8
    %3 = comb.shrs %c-128_i8, %c7_i8 : i8
    %4 = comb.shrs %c-128_i8, %c8_i8 : i8
    %5 = comb.shrs %c7_i8, %c-1_i8 : i8
    hw.output %0, %1, %2, %3, %4, %5 : i8, i8, i8, i8, i8, i8
  }
}
// -----
// shifts of constants, at 1 and 128 bits
module {
  hw.module @T(out o : i1, out p : i1, out q : i1, out r : i128, out s : i128) {
    %true = hw.constant true
    %false = hw.constant false
    %c1_i128 = hw.constant 1 : i128
    %c127_i128 = hw.constant 127 : i128
    %c128_i128 = hw.constant 128 : i128
    %c-170141183460469231731687303715884105728_i128 = hw.constant -170141183460469231731687303715884105728 : i128
    %0 = comb.shl %true, %true : i1
    %1 = comb.shrs %true, %true : i1
    %2 = comb.shru %true, %false : i1
    %3 = comb.shl %c1_i128, %c127_i128 : i128
    %4 = comb.shrs %c-170141183460469231731687303715884105728_i128, %c128_i128 : i128
    hw.output %0, %1, %2, %3, %4 : i1, i1, i1, i128, i128
  }
}
// -----
// comparisons of constants by sign and without; true is less than false by sign
module {
  hw.module @T(out o : i1, out p : i1, out q : i1, out r : i1, out s : i1, out t : i1, out u : i1) {
    %c-128_i8 = hw.constant -128 : i8
    %c127_i8 = hw.constant 127 : i8
    %c127_i8_0 = hw.constant 127 : i8
    %true = hw.constant true
    %false = hw.constant false
    %0 = comb.icmp slt %c-128_i8, %c127_i8 : i8
    %1 = comb.icmp ult %c-128_i8, %c127_i8 : i8
    %2 = comb.icmp sge %c-128_i8, %c127_i8 : i8
    %3 = comb.icmp uge %c-128_i8, %c127_i8 : i8
    %4 = comb.icmp ceq %c127_i8, %c127_i8_0 : i8
    %5 = comb.icmp wne %c127_i8, %c127_i8_0 : i8
    %6 = comb.icmp slt %true, %false : i1
    hw.output %0, %1, %2, %3, %4, %5, %6 : i1, i1, i1, i1, i1, i1, i1
  }
}
// -----
// parities of 7 and of all ones; the high half of A5, the highest bit of the least number
module {
  hw.module @T(out o : i1, out p : i1, out q : i4, out r : i1) {
    %c7_i8 = hw.constant 7 : i8
    %c-1_i128 = hw.constant -1 : i128
    %c-91_i8 = hw.constant -91 : i8
    %c-170141183460469231731687303715884105728_i128 = hw.constant -170141183460469231731687303715884105728 : i128
    %0 = comb.parity %c7_i8 : i8
    %1 = comb.parity %c-1_i128 : i128
    %2 = comb.extract %c-91_i8 from 4 : (i8) -> i4
    %3 = comb.extract %c-170141183460469231731687303715884105728_i128 from 127 : (i128) -> i1
    hw.output %0, %1, %2, %3 : i1, i1, i4, i1
  }
}
// -----
// concats of constants: A and 5 are A5; 1, 0, 1 are 5; copies of a bit, and of A
module {
  hw.module @T(out o : i8, out p : i3, out q : i128, out r : i8) {
    %c-6_i4 = hw.constant -6 : i4
    %c5_i4 = hw.constant 5 : i4
    %true = hw.constant true
    %false = hw.constant false
    %0 = comb.concat %c-6_i4, %c5_i4 : i4, i4
    %1 = comb.concat %true, %false, %true : i1, i1, i1
    %2 = comb.replicate %true : (i1) -> i128
    %3 = comb.replicate %c-6_i4 : (i4) -> i8
    hw.output %0, %1, %2, %3 : i8, i3, i128, i8
  }
}
// -----
// a chain of operations on constants becomes one constant
module {
  hw.module @T(out o : i8) {
    %c3_i8 = hw.constant 3 : i8
    %0 = comb.add %c3_i8, %c3_i8 {k} : i8
    %1 = comb.mul bin %0, %c3_i8 {k} : i8
    %2 = comb.shl %1, %c3_i8 : i8
    hw.output %2 : i8
  }
}
// -----
// a wire is no constant; operations on aggregates and bitcasts to other types stay
module {
  hw.module @T(in %a : i8, out o : i8, out p : i8, out q : i4, out r : !hw.array<2xi4>) {
    %c5_i8 = hw.constant 5 : i8
    %w = hw.wire %c5_i8 : i8
    %true = hw.constant true
    %c1_i4 = hw.constant 1 : i4
    %0 = hw.aggregate_constant [2 : i4, 3 : i4] : !hw.array<2xi4>
    %1 = comb.add %w, %c5_i8 : i8
    %2 = comb.sub %c5_i8, %a : i8
    %3 = hw.array_get %0[%true] : !hw.array<2xi4>, i1
    %4 = hw.array_inject %5[%true], %c1_i4 : !hw.array<2xi4>, i1
    %5 = hw.bitcast %c5_i8 : (i8) -> !hw.array<2xi4>
    hw.output %1, %2, %3, %4 : i8, i8, i4, !hw.array<2xi4>
  }
}
