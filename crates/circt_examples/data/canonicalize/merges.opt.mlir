// two constants of a sum are joined, and stand last
module {
  hw.module @T(in %a : i8, out o : i8) {
    %c3_i8 = hw.constant 3 : i8
    %0 = comb.add %a, %c3_i8 : i8
    hw.output %0 : i8
  }
}
// -----
// constants of each kind are joined; the new one stands just before the operation
module {
  hw.module @T(in %a : i8, out o : i8, out p : i8, out q : i8, out r : i8, out s : i8) {
    %c5_i8 = hw.constant 5 : i8
    %0 = comb.and %a, %c5_i8 {k} : i8
    %c95_i8 = hw.constant 95 : i8
    %1 = comb.or %a, %c95_i8 : i8
    %c90_i8 = hw.constant 90 : i8
    %2 = comb.xor %a, %c90_i8 : i8
    %c-5_i8 = hw.constant -5 : i8
    %3 = comb.mul %a, %c-5_i8 : i8
    %c-1_i8 = hw.constant -1 : i8
    %4 = comb.add bin %a, %c-1_i8 : i8
    hw.output %0, %1, %2, %3, %4 : i8, i8, i8, i8, i8
  }
}
// -----
// several constants between others are joined; those that others use too stay
module {
  hw.module @T(in %a : i8, in %b : i8, out o : i8, out p : i8) {
    %c3_i8 = hw.constant 3 : i8
    %c10_i8 = hw.constant 10 : i8
    %0 = comb.add %a, %b, %c10_i8 : i8
    %1 = comb.sub %a, %c3_i8 : i8
    hw.output %0, %1 : i8, i8
  }
}
// -----
// constants that are joined to 0, to all ones and to 1 go
module {
  hw.module @T(in %a : i8, in %b : i8, out o : i8, out p : i8, out q : i8, out r : i8, out s : i8) {
    %c0_i8 = hw.constant 0 : i8
    %c-1_i8 = hw.constant -1 : i8
    %c-1_i8_0 = hw.constant -1 : i8
    %0 = comb.xor %a, %b, %c-1_i8_0 : i8
    hw.output %a, %c0_i8, %c-1_i8, %0, %a : i8, i8, i8, i8, i8
  }
}
// -----
// constants are joined, at 1 and 128 bits
module {
  hw.module @T(in %a : i1, in %b : i128, out o : i1, out p : i128, out q : i128) {
    %c170141183460469231731687303715884105727_i128 = hw.constant 170141183460469231731687303715884105727 : i128
    %0 = comb.add %b, %c170141183460469231731687303715884105727_i128 : i128
    %c-170141183460469231731687303715884105728_i128 = hw.constant -170141183460469231731687303715884105728 : i128
    %1 = comb.mul %b, %c-170141183460469231731687303715884105728_i128 : i128
    hw.output %a, %0, %1 : i1, i128, i128
  }
}
// -----
// a constant before others is moved last, and keeps its place in the body
module {
  hw.module @T(in %a : i8, in %b : i8, out o : i8, out p : i8, out q : i8, out r : i8, out s : i8) {
    %c5_i8 = hw.constant 5 {k} : i8
    %0 = comb.add %a, %c5_i8 : i8
    %1 = comb.mul %a, %b, %c5_i8 {k} : i8
    %2 = comb.and %b, %a, %c5_i8 : i8
    %3 = comb.or %b, %c5_i8 : i8
    %4 = comb.xor bin %b, %c5_i8 : i8
    hw.output %0, %1, %2, %3, %4 : i8, i8, i8, i8, i8
  }
}
// -----
// a constant that stands in the body after its use is moved last, at 1 and 128 bits
module {
  hw.module @T(in %a : i1, in %b : i128, out o : i1, out p : i128) {
    %0 = comb.xor %a, %true : i1
    %true = hw.constant true
    %1 = comb.add %b, %b, %c-1_i128 : i128
    %c-1_i128 = hw.constant -1 : i128
    hw.output %0, %1 : i1, i128
  }
}
// -----
// one constant that stands last stays
module {
  hw.module @T(in %a : i8, in %b : i8, out o : i8, out p : i8) {
    %c5_i8 = hw.constant 5 : i8
    %0 = comb.add %a, %c5_i8 : i8
    %1 = comb.and %b, %a, %c5_i8 : i8
    hw.output %0, %1 : i8, i8
  }
}
// -----
// operations of two operands keep their order, the constant first
module {
  hw.module @T(in %a : i8, out o : i8, out p : i8, out q : i1, out r : i16) {
    %c5_i8 = hw.constant 5 : i8
    %0 = comb.sub %c5_i8, %a : i8
    %1 = comb.shl %c5_i8, %a : i8
    %2 = comb.icmp eq %c5_i8, %a : i8
    %3 = comb.concat %c5_i8, %a : i8, i8
    hw.output %0, %1, %2, %3 : i8, i8, i1, i16
  }
}
// -----
// a sum with one use is taken in by a sum
module {
  hw.module @T(in %a : i8, in %b : i8, in %c : i8, out o : i8) {
    %0 = comb.add %a, %b, %c : i8
    hw.output %0 : i8
  }
}
// -----
// what is taken in stands in its place among the operands
module {
  hw.module @T(in %a : i8, in %b : i8, in %c : i8, out o : i8, out p : i8) {
    %0 = comb.mul %c, %a, %b, %a, %b : i8
    %1 = comb.add %b, %c, %a, %a, %b : i8
    hw.output %0, %1 : i8, i8
  }
}
// -----
// one operation after another is taken in, at 1 and 128 bits
module {
  hw.module @T(in %a : i1, in %b : i1, in %c : i128, in %d : i128, out o : i1, out p : i128) {
    %0 = comb.and %a, %b : i1
    hw.output %0, %c : i1, i128
  }
}
// -----
// an operation is taken in that stands after the one that takes it in
module {
  hw.module @T(in %a : i8, in %b : i8, in %c : i8, out o : i8, out p : i8) {
    %0 = comb.or %a, %b, %c : i8
    %1 = comb.sub %a, %b : i8
    hw.output %0, %1 : i8, i8
  }
}
// -----
// the dictionary and `bin` are those of the operation that takes in
module {
  hw.module @T(in %a : i8, in %b : i8, in %c : i8, out o : i8, out p : i8) {
    %0 = comb.add %a, %b, %c {outer} : i8
    %1 = comb.or bin %c, %a, %b : i8
    hw.output %0, %1 : i8, i8
  }
}
// -----
// constants of an operation and of what it takes in are joined
module {
  hw.module @T(in %a : i8, in %b : i8, out o : i8) {
    %0 = comb.sub %a, %b : i8
    %c3_i8 = hw.constant 3 : i8
    %1 = comb.add %a, %0, %c3_i8 : i8
    hw.output %1 : i8
  }
}
// -----
// what has two uses, by two operations or by one, is not taken in
module {
  hw.module @T(in %a : i8, in %b : i8, in %c : i8, out o : i8, out p : i8, out q : i8) {
    %0 = comb.add %a, %b : i8
    %1 = comb.add %0, %c : i8
    %2 = comb.mul %a, %b : i8
    %3 = comb.mul %2, %c, %2 : i8
    hw.output %0, %1, %3 : i8, i8, i8
  }
}
// -----
// another kind is not taken in, nor is a comb.sub by a comb.sub
module {
  hw.module @T(in %a : i8, in %b : i8, in %c : i8, out o : i8, out p : i8, out q : i8) {
    %0 = comb.add %a, %b : i8
    %1 = comb.mul %0, %c : i8
    %2 = comb.and %a, %b : i8
    %3 = comb.or %2, %c : i8
    %4 = comb.sub %a, %b : i8
    %5 = comb.sub %4, %c : i8
    hw.output %1, %3, %5 : i8, i8, i8
  }
}
// -----
// nothing is taken in through itself, a register or a wire
module {
  hw.module @T(in %clk : !seq.clock, in %a : i8, in %b : i8, out o : i8) {
    %0 = comb.add %r, %a : i8
    %r = seq.compreg %0, %clk : i8
    %1 = comb.xor %a, %b : i8
    %w = hw.wire %1 : i8
    %2 = comb.xor %w, %a : i8
    hw.output %2 : i8
  }
}
// -----
// an unused operation has the second use until it is gone
module {
  hw.module @T(in %a : i8, in %b : i8, in %c : i8, out o : i8) {
    %0 = comb.add %a, %b, %c : i8
    hw.output %0 : i8
  }
}
