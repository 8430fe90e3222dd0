// RUN: circt opt --canonicalize
// the value of constants comes before the chosen branch
// Each text of this file would end otherwise if a later row came first: what an operation becomes has no dictionary where it is new, and
// that of the value which stands for it otherwise.
module {
  hw.module @T(out o : i8) {
    %true = hw.constant true
    %c5_i8 = hw.constant 5 {k} : i8
    %c6_i8 = hw.constant 6 : i8
    %0 = comb.mux %true, %c5_i8, %c6_i8 {k} : i8
    hw.output %0 : i8
  }
}
// -----
// the value of constants comes before one of them
module {
  hw.module @T(out o : i8, out p : i8, out q : i8) {
    %c0_i8 = hw.constant 0 {k} : i8
    %c5_i8 = hw.constant 5 {k} : i8
    %0 = comb.and %c5_i8, %c0_i8 : i8
    %1 = comb.sub %c5_i8, %c0_i8 : i8
    %2 = comb.extract %c5_i8 from 0 : (i8) -> i8
    hw.output %0, %1, %2 : i8, i8, i8
  }
}
// -----
// one operand comes before an operand of the same kind
module {
  hw.module @T(in %a : i8, in %b : i8, out o : i8) {
    %0 = comb.add %a, %b {inner} : i8
    %1 = comb.add %0 {outer} : i8
    hw.output %1 : i8
  }
}
// -----
// what decides nothing is dropped before constants are joined
module {
  hw.module @T(in %a : i8, out o : i8, out p : i8, out q : i8, out r : i8, out s : i8) {
    %c0_i8 = hw.constant 0 : i8
    %c-1_i8 = hw.constant -1 : i8
    %c1_i8 = hw.constant 1 : i8
    %c5_i8 = hw.constant 5 {k} : i8
    %0 = comb.add %c0_i8, %a, %c5_i8 : i8
    %1 = comb.or %c0_i8, %a, %c5_i8 : i8
    %2 = comb.xor %c0_i8, %a, %c5_i8 : i8
    %3 = comb.and %c-1_i8, %a, %c5_i8 : i8
    %4 = comb.mul %c1_i8, %a, %c5_i8 : i8
    hw.output %0, %1, %2, %3, %4 : i8, i8, i8, i8, i8
  }
}
// -----
// what decides everything stands for the result before constants are joined
module {
  hw.module @T(in %a : i8, out o : i8, out p : i8, out q : i8) {
    %c0_i8 = hw.constant 0 {k} : i8
    %c-1_i8 = hw.constant -1 {k} : i8
    %c5_i8 = hw.constant 5 : i8
    %0 = comb.and %c5_i8, %a, %c0_i8 : i8
    %1 = comb.or %c5_i8, %a, %c-1_i8 : i8
    %2 = comb.mul %c5_i8, %a, %c0_i8 : i8
    hw.output %0, %1, %2 : i8, i8, i8
  }
}
// -----
// an operand that stands earlier too is dropped before constants are joined
module {
  hw.module @T(in %a : i8, out o : i8, out p : i8) {
    %c5_i8 = hw.constant 5 {k} : i8
    %0 = comb.and %c5_i8, %a, %c5_i8 : i8
    %1 = comb.or %c5_i8, %a, %c5_i8 : i8
    hw.output %0, %1 : i8, i8
  }
}
// -----
// two equal operands of xor are dropped before three constants are joined
module {
  hw.module @T(in %a : i8, out o : i8) {
    %c3_i8 = hw.constant 3 : i8
    %c5_i8 = hw.constant 5 {k} : i8
    %0 = comb.xor %c5_i8, %c3_i8, %c3_i8, %a : i8
    hw.output %0 : i8
  }
}
// -----
// all bits come before an extract of an extract
module {
  hw.module @T(in %a : i8, out o : i4) {
    %0 = comb.extract %a from 2 {inner} : (i8) -> i4
    %1 = comb.extract %0 from 0 {outer} : (i4) -> i4
    hw.output %1 : i4
  }
}
// -----
// a concat of a concat comes before a concat of one operand
module {
  hw.module @T(in %a : i8, in %b : i8, out o : i16) {
    %0 = comb.concat %a, %b {inner} : i8, i8
    %1 = comb.concat %0 {outer} : i16
    hw.output %1 : i16
  }
}
// -----
// a chain: a sum with 0, an xor with itself, an or with that
module {
  hw.module @T(in %a : i8, out o : i8) {
    %z = hw.constant 0 : i8
    %0 = comb.add %a, %z : i8
    %1 = comb.xor %0, %0 : i8
    %2 = comb.or %1, %a : i8
    hw.output %2 : i8
  }
}
// -----
// a chain of operands that stand after the operations that use them
module {
  hw.module @T(in %a : i8, in %b : i8, out o : i8) {
    %0 = comb.or %1, %a : i8
    %1 = comb.xor %2, %2 : i8
    %2 = comb.add %a, %b : i8
    hw.output %0 : i8
  }
}
// -----
// a tree of operands that stand after, down to a comparison of 0 and a value
module {
  hw.module @T(in %a : i8, out o : i1) {
    %0 = comb.icmp eq %1, %a : i8
    %1 = comb.sub %2, %3 : i8
    %2 = comb.shl %a, %4 : i8
    %3 = comb.mul %5, %a : i8
    %4 = comb.sub %a, %a : i8
    %5 = comb.xor %a, %a : i8
    hw.output %0 : i1
  }
}
// -----
// a constant of constants goes through all kinds of operands
module {
  hw.module @T(in %clk : !seq.clock, in %rst : i1, in %a : i8, in %b : i8, out o : i8, out p : i8) {
    %c3_i8 = hw.constant 3 : i8
    %0 = comb.sub %c3_i8, %c3_i8 : i8
    %1 = comb.icmp eq %0, %c3_i8 : i8
    %2 = comb.mux %1, %a, %b : i8
    %r = seq.compreg %2, %clk reset %rst, %0 : i8
    %w = hw.wire %2 : i8
    %u.o = hw.instance "u" @U(i: %0: i8) -> (o: i8)
    hw.output %w, %u.o : i8, i8
  }
  hw.module private @U(in %i : i8, out o : i8) {
    hw.output %i : i8
  }
}
// -----
// bits of parts of parts, through a concat, a struct and an array
module {
  hw.module @T(in %a : i8, in %b : i8, out o : i4) {
    %false = hw.constant false
    %0 = comb.concat %a, %b : i8, i8
    %1 = comb.extract %0 from 8 : (i16) -> i8
    %2 = hw.struct_create (%b, %1) : !hw.struct<x: i8, y: i8>
    %3 = hw.struct_extract %2["y"] : !hw.struct<x: i8, y: i8>
    %4 = hw.array_create %b, %3 : i8
    %5 = hw.array_get %4[%false] : !hw.array<2xi8>, i1
    %6 = comb.extract %5 from 4 : (i8) -> i4
    hw.output %6 : i4
  }
}
// -----
// an extract that is joined to all bits, and to an operand of a concat
module {
  hw.module @T(in %a : i8, in %b : i8, out o : i8, out p : i4) {
    %0 = comb.concat %a, %b : i8, i8
    %1 = comb.extract %0 from 4 : (i16) -> i12
    %2 = comb.extract %1 from 4 : (i12) -> i8
    %3 = comb.extract %2 from 4 : (i8) -> i4
    hw.output %2, %3 : i8, i4
  }
}
// -----
// a divisor stays a constant
module {
  hw.module @T(in %a : i8, in %b : i8, out o : i8, out p : i8) {
    %c3_i8 = hw.constant 3 : i8
    %c0_i8 = hw.constant 0 : i8
    %0 = comb.add %a, %c0_i8 : i8
    %1 = comb.divu %0, %c3_i8 : i8
    %2 = comb.add %c3_i8, %b, %c3_i8 : i8
    hw.output %1, %2 : i8, i8
  }
}
// -----
// two registers of one another, and names that are not given anew
module {
  hw.module @T(in %clk : !seq.clock, in %c5_i8 : i8, out o : i8) {
    %c5_i8_0 = hw.constant 5 : i8
    %0 = comb.add %s, %c5_i8_0 : i8
    %r = seq.compreg %0, %clk : i8
    %1 = comb.add %r, %c5_i8 {sv.namehint = "sum"} : i8
    %s = seq.compreg %1, %clk : i8
    hw.output %r : i8
  }
}
// -----
// what is taken in has an operand that is taken in, and one twice
module {
  hw.module @T(in %a : i8, in %b : i8, out o : i8) {
    %0 = comb.and %a, %1 : i8
    %1 = comb.and %2, %3 : i8
    %2 = comb.and %3, %b : i8
    %3 = comb.sub %a, %b : i8
    hw.output %0 : i8
  }
}
// -----
// visits are in text order: constants are joined before one of them comes to stand twice
module {
  hw.module @T(in %a : i8, in %b : i8, out o : i8) {
    %true = hw.constant true
    %c3_i8 = hw.constant 3 : i8
    %c5_i8 = hw.constant 5 {k} : i8
    %0 = comb.xor %1, %a, %c3_i8, %c5_i8 : i8
    %1 = comb.mux %true, %c3_i8, %b : i8
    hw.output %0 : i8
  }
}
// -----
// visits are in text order: one constant comes to stand twice before constants are joined
module {
  hw.module @T(in %a : i8, in %b : i8, out o : i8) {
    %true = hw.constant true
    %c3_i8 = hw.constant 3 : i8
    %c5_i8 = hw.constant 5 {k} : i8
    %0 = comb.mux %true, %c3_i8, %b : i8
    %1 = comb.xor %0, %a, %c3_i8, %c5_i8 : i8
    hw.output %1 : i8
  }
}
// -----
// an operation whose operands change is not visited again before the next sweep
module {
  hw.module @T(in %a : i8, in %b : i8, out o : i8) {
    %true = hw.constant true
    %c3_i8 = hw.constant 3 : i8
    %c5_i8 = hw.constant 5 {k} : i8
    %0 = comb.xor %1, %2, %a, %c5_i8 : i8
    %1 = comb.mux %true, %c3_i8, %b : i8
    %2 = comb.mux %true, %c3_i8, %a : i8
    hw.output %0 : i8
  }
}
// -----
// a new operation is not visited: two extracts are taken in before they are seen to be an operand
module {
  hw.module @T(in %a : i8, in %b : i8, out o : i4) {
    %0 = comb.concat %a, %b : i8, i8
    %1 = comb.extract %0 from 4 : (i16) -> i12
    %2 = comb.extract %1 from 4 : (i12) -> i8
    %3 = comb.extract %2 from 4 : (i8) -> i4
    hw.output %3 : i4
  }
}
