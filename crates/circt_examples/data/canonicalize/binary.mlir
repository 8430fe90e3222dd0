// RUN: circt opt --canonicalize
// comb.sub of 0 is the value, at 8, 1 and 128 bits
module {
  hw.module @T(in %a : i8, in %b : i1, in %c : i128, out o : i8, out p : i1, out q : i128) {
    %c0_i8 = hw.constant 0 : i8
    %false = hw.constant false
    %c0_i128 = hw.constant 0 : i128
    %0 = comb.sub %a, %c0_i8 {k} : i8
    %1 = comb.sub %b, %false : i1
    %2 = comb.sub %c, %c0_i128 : i128
    hw.output %0, %1, %2 : i8, i1, i128
  }
}
// -----
// comb.sub of a value and itself is 0
module {
  hw.module @T(in %a : i8, in %b : i1, in %c : i128, out o : i8, out p : i1, out q : i128) {
    %0 = comb.sub %a, %a {k} : i8
    %1 = comb.sub %b, %b : i1
    %2 = comb.sub %c, %c : i128
    hw.output %0, %1, %2 : i8, i1, i128
  }
}
// -----
// comb.sub of a register and itself is 0
module {
  hw.module @T(in %clk : !seq.clock, in %a : i8, out o : i8) {
    %0 = comb.sub %r, %r : i8
    %r = seq.compreg %1, %clk : i8
    %1 = comb.add %r, %0 : i8
    hw.output %0 : i8
  }
}
// -----
// comb.sub stays: 0 less a value, other constants, and results of two operations alike
module {
  hw.module @T(in %a : i8, in %b : i1, out o : i8, out p : i8, out q : i1, out r : i8) {
    %c0_i8 = hw.constant 0 : i8
    %c-1_i8 = hw.constant -1 : i8
    %true = hw.constant true
    %0 = comb.sub %c0_i8, %a : i8
    %1 = comb.sub %a, %c-1_i8 : i8
    %2 = comb.sub %b, %true : i1
    %3 = comb.parity %a : i8
    %4 = comb.parity %a : i8
    %5 = comb.replicate %3 : (i1) -> i8
    %6 = comb.replicate %4 : (i1) -> i8
    %7 = comb.sub %5, %6 : i8
    hw.output %0, %1, %2, %7 : i8, i8, i1, i8
  }
}
// -----
// shifts by 0 are the value
module {
  hw.module @T(in %a : i8, in %b : i1, in %c : i128, out o : i8, out p : i8, out q : i8, out r : i1, out s : i128) {
    %c0_i8 = hw.constant 0 : i8
    %false = hw.constant false
    %c0_i128 = hw.constant 0 : i128
    %0 = comb.shl %a, %c0_i8 : i8
    %1 = comb.shru %a, %c0_i8 : i8
    %2 = comb.shrs %a, %c0_i8 : i8
    %3 = comb.shrs %b, %false : i1
    %4 = comb.shl %c, %c0_i128 : i128
    hw.output %0, %1, %2, %3, %4 : i8, i8, i8, i1, i128
  }
}
// -----
// a shift by 0 of a register that the shift feeds
module {
  hw.module @T(in %clk : !seq.clock, in %a : i8, out o : i8) {
    %c0_i8 = hw.constant 0 : i8
    %0 = comb.shru %r, %c0_i8 : i8
    %r = seq.compreg %0, %clk : i8
    hw.output %0 : i8
  }
}
// -----
// shifts stay: 0 by a value, by 1, and a value by itself
module {
  hw.module @T(in %a : i8, out o : i8, out p : i8, out q : i8, out r : i8) {
    %c0_i8 = hw.constant 0 : i8
    %c1_i8 = hw.constant 1 : i8
    %0 = comb.shl %c0_i8, %a : i8
    %1 = comb.shl %a, %c1_i8 : i8
    %2 = comb.shru %a, %c1_i8 : i8
    %3 = comb.shrs %a, %a : i8
    hw.output %0, %1, %2, %3 : i8, i8, i8, i8
  }
}
// -----
// shifts left and right by the width, above it, and by all ones are 0
module {
  hw.module @T(in %a : i8, out o : i8, out p : i8, out q : i8, out r : i8) {
    %c8_i8 = hw.constant 8 : i8
    %c9_i8 = hw.constant 9 : i8
    %c-1_i8 = hw.constant -1 : i8
    %0 = comb.shl %a, %c8_i8 {k} : i8
    %1 = comb.shru %a, %c9_i8 : i8
    %2 = comb.shru %a, %c-1_i8 : i8
    %3 = comb.shl %a, %c-1_i8 : i8
    hw.output %0, %1, %2, %3 : i8, i8, i8, i8
  }
}
// -----
// shifts by the width and by all ones are 0, at 1 and 128 bits
module {
  hw.module @T(in %a : i1, in %b : i128, out o : i1, out p : i1, out q : i128, out r : i128) {
    %true = hw.constant true
    %c128_i128 = hw.constant 128 : i128
    %c-1_i128 = hw.constant -1 : i128
    %0 = comb.shl %a, %true : i1
    %1 = comb.shru %a, %true : i1
    %2 = comb.shl %b, %c128_i128 : i128
    %3 = comb.shru %b, %c-1_i128 : i128
    hw.output %0, %1, %2, %3 : i1, i1, i128, i128
  }
}
// -----
// shifts by the width less 1 stay
module {
  hw.module @T(in %a : i8, in %b : i128, out o : i8, out p : i8, out q : i128, out r : i128) {
    %c7_i8 = hw.constant 7 : i8
    %c127_i128 = hw.constant 127 : i128
    %0 = comb.shl %a, %c7_i8 : i8
    %1 = comb.shru %a, %c7_i8 : i8
    %2 = comb.shl %b, %c127_i128 : i128
    %3 = comb.shru %b, %c127_i128 : i128
    hw.output %0, %1, %2, %3 : i8, i8, i128, i128
  }
}
// -----
// arithmetic shifts by the width and more stay: the sign is kept
module {
  hw.module @T(in %a : i8, in %b : i1, in %c : i128, out o : i8, out p : i8, out q : i1, out r : i128) {
    %c8_i8 = hw.constant 8 : i8
    %c-1_i8 = hw.constant -1 : i8
    %true = hw.constant true
    %c128_i128 = hw.constant 128 : i128
    %0 = comb.shrs %a, %c8_i8 : i8
    %1 = comb.shrs %a, %c-1_i8 : i8
    %2 = comb.shrs %b, %true : i1
    %3 = comb.shrs %c, %c128_i128 : i128
    hw.output %0, %1, %2, %3 : i8, i8, i1, i128
  }
}
// -----
// division by 1, which one bit of 1 is too, is the value
module {
  hw.module @T(in %a : i8, in %b : i1, in %c : i128, out o : i8, out p : i8, out q : i1, out r : i1, out s : i128) {
    %c1_i8 = hw.constant 1 : i8
    %true = hw.constant true
    %c1_i128 = hw.constant 1 : i128
    %0 = comb.divu %a, %c1_i8 {k} : i8
    %1 = comb.divs %a, %c1_i8 : i8
    %2 = comb.divu %b, %true : i1
    %3 = comb.divs %b, %true : i1
    %4 = comb.divs %c, %c1_i128 : i128
    hw.output %0, %1, %2, %3, %4 : i8, i8, i1, i1, i128
  }
}
// -----
// the remainder of division by 1 is 0
module {
  hw.module @T(in %a : i8, in %b : i1, out o : i8, out p : i8, out q : i1) {
    %c1_i8 = hw.constant 1 : i8
    %true = hw.constant true
    %0 = comb.modu %a, %c1_i8 : i8
    %1 = comb.mods %a, %c1_i8 {k} : i8
    %2 = comb.mods %b, %true : i1
    hw.output %0, %1, %2 : i8, i8, i1
  }
}
// -----
// the remainder and the quotient by 1, at 128 bits
module {
  hw.module @T(in %a : i128, out o : i128, out p : i128) {
    %c1_i128 = hw.constant 1 : i128
    %0 = comb.modu %a, %c1_i128 : i128
    %1 = comb.divu %a, %c1_i128 : i128
    hw.output %0, %1 : i128, i128
  }
}
// -----
// division and remainder by -1 and by 2 stay
module {
  hw.module @T(in %a : i8, in %b : i128, out o : i8, out p : i8, out q : i8, out r : i8, out s : i128) {
    %c-1_i8 = hw.constant -1 : i8
    %c2_i8 = hw.constant 2 : i8
    %c-1_i128 = hw.constant -1 : i128
    %0 = comb.divs %a, %c-1_i8 : i8
    %1 = comb.mods %a, %c-1_i8 : i8
    %2 = comb.divu %a, %c2_i8 : i8
    %3 = comb.modu %a, %c2_i8 : i8
    %4 = comb.mods %b, %c-1_i128 : i128
    hw.output %0, %1, %2, %3, %4 : i8, i8, i8, i8, i128
  }
}
// -----
// comparisons that hold of a value and itself are true
module {
  hw.module @T(in %a : i8, out o : i1, out p : i1, out q : i1, out r : i1, out s : i1, out t : i1, out u : i1) {
    %0 = comb.icmp eq %a, %a {k} : i8
    %1 = comb.icmp ceq %a, %a : i8
    %2 = comb.icmp weq %a, %a : i8
    %3 = comb.icmp sle %a, %a : i8
    %4 = comb.icmp sge %a, %a : i8
    %5 = comb.icmp ule %a, %a : i8
    %6 = comb.icmp uge %a, %a : i8
    hw.output %0, %1, %2, %3, %4, %5, %6 : i1, i1, i1, i1, i1, i1, i1
  }
}
// -----
// comparisons that fail of a value and itself are false
module {
  hw.module @T(in %a : i8, out o : i1, out p : i1, out q : i1, out r : i1, out s : i1, out t : i1, out u : i1) {
    %0 = comb.icmp ne %a, %a : i8
    %1 = comb.icmp cne %a, %a : i8
    %2 = comb.icmp wne %a, %a : i8
    %3 = comb.icmp slt %a, %a : i8
    %4 = comb.icmp sgt %a, %a : i8
    %5 = comb.icmp ult %a, %a : i8
    %6 = comb.icmp bin ugt %a, %a : i8
    hw.output %0, %1, %2, %3, %4, %5, %6 : i1, i1, i1, i1, i1, i1, i1
  }
}
// -----
// comparisons of a value and itself, at 1 and 128 bits
module {
  hw.module @T(in %a : i1, in %b : i128, out o : i1, out p : i1) {
    %0 = comb.icmp uge %a, %a : i1
    %1 = comb.icmp slt %b, %b : i128
    hw.output %0, %1 : i1, i1
  }
}
// -----
// comparisons stay: of two values, and with the ends of the range
module {
  hw.module @T(in %a : i8, in %b : i8, out o : i1, out p : i1, out q : i1) {
    %c0_i8 = hw.constant 0 : i8
    %c-128_i8 = hw.constant -128 : i8
    %0 = comb.icmp eq %a, %b : i8
    %1 = comb.icmp uge %a, %c0_i8 : i8
    %2 = comb.icmp slt %a, %c-128_i8 : i8
    hw.output %0, %1, %2 : i1, i1, i1
  }
}
