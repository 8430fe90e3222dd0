// RUN: circt opt --canonicalize
// an operation of one operand is that operand
module {
  hw.module @T(in %a : i8, out o : i8, out p : i8, out q : i8, out r : i8, out s : i8) {
    %0 = comb.add %a : i8
    %1 = comb.mul %a : i8
    %2 = comb.and %a : i8
    %3 = comb.or %a : i8
    %4 = comb.xor %a : i8
    hw.output %0, %1, %2, %3, %4 : i8, i8, i8, i8, i8
  }
}
// -----
// an operation of one operand, at 1 and 128 bits, with a dictionary and `bin`
module {
  hw.module @T(in %a : i1, in %b : i128, out o : i1, out p : i128) {
    %0 = comb.or %a {k} : i1
    %1 = comb.add bin %b : i128
    hw.output %0, %1 : i1, i128
  }
}
// -----
// an operation of one operand, which is its own register
module {
  hw.module @T(in %clk : !seq.clock, out o : i8) {
    %0 = comb.add %r : i8
    %r = seq.compreg %0, %clk : i8
    hw.output %0 : i8
  }
}
// -----
// two operands stay: one twice, and a register of the result
module {
  hw.module @T(in %clk : !seq.clock, in %a : i8, out o : i8, out p : i8) {
    %0 = comb.add %a, %a : i8
    %1 = comb.mul %r, %0 : i8
    %r = seq.compreg %1, %clk : i8
    hw.output %0, %1 : i8, i8
  }
}
// -----
// add drops 0 at each place
module {
  hw.module @T(in %a : i8, in %b : i8, out o : i8, out p : i8, out q : i8, out r : i8) {
    %c0_i8 = hw.constant 0 : i8
    %0 = comb.add %c0_i8, %a, %b : i8
    %1 = comb.add %a, %c0_i8, %b {k} : i8
    %2 = comb.add bin %a, %b, %c0_i8 : i8
    %3 = comb.add %c0_i8, %a, %c0_i8 : i8
    hw.output %0, %1, %2, %3 : i8, i8, i8, i8
  }
}
// -----
// add drops 0, at 1 and 128 bits
module {
  hw.module @T(in %a : i1, in %b : i128, out o : i1, out p : i128) {
    %false = hw.constant false
    %c0_i128 = hw.constant 0 : i128
    %0 = comb.add %a, %false : i1
    %1 = comb.add %c0_i128, %b, %b, %c0_i128 : i128
    hw.output %0, %1 : i1, i128
  }
}
// -----
// add keeps 1 and all ones, at 1, 8 and 128 bits
module {
  hw.module @T(in %a : i1, in %b : i8, in %c : i128, out o : i1, out p : i8, out q : i128) {
    %true = hw.constant true
    %c1_i8 = hw.constant 1 : i8
    %c-1_i128 = hw.constant -1 : i128
    %0 = comb.add %a, %true : i1
    %1 = comb.add %b, %c1_i8 : i8
    %2 = comb.add %c, %c-1_i128 : i128
    hw.output %0, %1, %2 : i1, i8, i128
  }
}
// -----
// or drops 0 at each place
module {
  hw.module @T(in %a : i8, in %b : i8, out o : i8, out p : i8, out q : i8) {
    %c0_i8 = hw.constant 0 : i8
    %0 = comb.or %c0_i8, %a : i8
    %1 = comb.or %a, %c0_i8, %b : i8
    %2 = comb.or %a, %c0_i8, %c0_i8 : i8
    hw.output %0, %1, %2 : i8, i8, i8
  }
}
// -----
// or drops 0, at 1 and 128 bits
module {
  hw.module @T(in %a : i1, in %b : i128, out o : i1, out p : i128) {
    %false = hw.constant false
    %c0_i128 = hw.constant 0 : i128
    %0 = comb.or %false, %a : i1
    %1 = comb.or %b, %c0_i128 : i128
    hw.output %0, %1 : i1, i128
  }
}
// -----
// xor drops 0, at 8 and 128 bits
module {
  hw.module @T(in %a : i8, in %b : i8, in %c : i128, out o : i8, out p : i8, out q : i128) {
    %c0_i8 = hw.constant 0 : i8
    %c0_i128 = hw.constant 0 : i128
    %0 = comb.xor %c0_i8, %a : i8
    %1 = comb.xor %a, %c0_i8, %b : i8
    %2 = comb.xor %c, %c0_i128 : i128
    hw.output %0, %1, %2 : i8, i8, i128
  }
}
// -----
// xor drops 0 of one bit
module {
  hw.module @T(in %a : i1, in %b : i1, out o : i1, out p : i1) {
    %false = hw.constant false
    %0 = comb.xor %a, %false : i1
    %1 = comb.xor %false, %a, %b, %false : i1
    hw.output %0, %1 : i1, i1
  }
}
// -----
// 1 counts in or, and all ones in xor
module {
  hw.module @T(in %a : i8, in %b : i1, out o : i8, out p : i8, out q : i1) {
    %c1_i8 = hw.constant 1 : i8
    %c-1_i8 = hw.constant -1 : i8
    %true = hw.constant true
    %0 = comb.or %a, %c1_i8 : i8
    %1 = comb.xor %a, %c-1_i8 : i8
    %2 = comb.xor %b, %true : i1
    hw.output %0, %1, %2 : i8, i8, i1
  }
}
// -----
// and drops all ones, however they are written
module {
  hw.module @T(in %a : i8, in %b : i8, out o : i8, out p : i8, out q : i8) {
    %0 = hw.constant 255 : i8
    %1 = hw.constant -1 : i8
    %2 = comb.and %0, %a : i8
    %3 = comb.and %a, %1, %b : i8
    %4 = comb.and %b, %1, %0 : i8
    hw.output %2, %3, %4 : i8, i8, i8
  }
}
// -----
// and drops all ones at 1 and 128 bits, and keeps all ones but one bit
module {
  hw.module @T(in %a : i1, in %b : i128, in %c : i8, out o : i1, out p : i128, out q : i8, out r : i8) {
    %true = hw.constant true
    %c-1_i128 = hw.constant -1 : i128
    %c127_i8 = hw.constant 127 : i8
    %c-2_i8 = hw.constant -2 : i8
    %0 = comb.and %a, %true : i1
    %1 = comb.and %c-1_i128, %b : i128
    %2 = comb.and %c, %c127_i8 : i8
    %3 = comb.and %c, %c-2_i8 : i8
    hw.output %0, %1, %2, %3 : i1, i128, i8, i8
  }
}
// -----
// mul drops 1, which one bit of 1 is too
module {
  hw.module @T(in %a : i8, in %b : i8, in %c : i1, in %d : i128, out o : i8, out p : i8, out q : i1, out r : i128) {
    %c1_i8 = hw.constant 1 : i8
    %true = hw.constant true
    %c1_i128 = hw.constant 1 : i128
    %0 = comb.mul %c1_i8, %a : i8
    %1 = comb.mul %a, %c1_i8, %b, %c1_i8 : i8
    %2 = comb.mul %c, %true : i1
    %3 = comb.mul %d, %c1_i128 : i128
    hw.output %0, %1, %2, %3 : i8, i8, i1, i128
  }
}
// -----
// mul keeps -1 and 2, at 8 and 128 bits
module {
  hw.module @T(in %a : i8, in %b : i128, out o : i8, out p : i8, out q : i128) {
    %c-1_i8 = hw.constant -1 : i8
    %c2_i8 = hw.constant 2 : i8
    %c-1_i128 = hw.constant -1 : i128
    %0 = comb.mul %a, %c-1_i8 : i8
    %1 = comb.mul %a, %c2_i8 : i8
    %2 = comb.mul %b, %c-1_i128 : i128
    hw.output %0, %1, %2 : i8, i8, i128
  }
}
// -----
// and with 0 is the operand 0 itself, with its dictionary
module {
  hw.module @T(in %a : i8, in %b : i8, out o : i8, out p : i8) {
    %c0_i8 = hw.constant 0 {k} : i8
    %0 = comb.and %a, %c0_i8 : i8
    %1 = comb.and %c0_i8, %a, %b : i8
    hw.output %0, %1 : i8, i8
  }
}
// -----
// and with 0, at 1 and 128 bits
module {
  hw.module @T(in %a : i1, in %b : i128, out o : i1, out p : i128) {
    %false = hw.constant false
    %c0_i128 = hw.constant 0 : i128
    %0 = comb.and %a, %false : i1
    %1 = comb.and %b, %b, %c0_i128 : i128
    hw.output %0, %1 : i1, i128
  }
}
// -----
// or with all ones is that operand
module {
  hw.module @T(in %a : i8, in %b : i1, in %c : i128, out o : i8, out p : i1, out q : i128) {
    %c-1_i8 = hw.constant -1 {k} : i8
    %true = hw.constant true
    %c-1_i128 = hw.constant -1 : i128
    %0 = comb.or %a, %c-1_i8 : i8
    %1 = comb.or %true, %b : i1
    %2 = comb.or %c, %c-1_i128, %c : i128
    hw.output %0, %1, %2 : i8, i1, i128
  }
}
// -----
// mul with 0 is that operand
module {
  hw.module @T(in %a : i8, in %b : i1, in %c : i128, out o : i8, out p : i1, out q : i128) {
    %c0_i8 = hw.constant 0 {k} : i8
    %false = hw.constant false
    %c0_i128 = hw.constant 0 : i128
    %0 = comb.mul %a, %c0_i8 : i8
    %1 = comb.mul %false, %b : i1
    %2 = comb.mul %c, %c0_i128, %c : i128
    hw.output %0, %1, %2 : i8, i1, i128
  }
}
// -----
// and of all ones and 0: all ones are dropped before 0 stands for it
module {
  hw.module @T(in %a : i8, out o : i8) {
    %c-1_i8 = hw.constant -1 : i8
    %c0_i8 = hw.constant 0 {k} : i8
    %0 = comb.and %a, %c-1_i8, %c0_i8 : i8
    hw.output %0 : i8
  }
}
// -----
// a wire of 0 is no constant
module {
  hw.module @T(in %a : i8, out o : i8, out p : i8, out q : i8) {
    %c0_i8 = hw.constant 0 : i8
    %w = hw.wire %c0_i8 : i8
    %0 = comb.and %a, %w : i8
    %1 = comb.mul %w, %a : i8
    %2 = comb.add %w, %a : i8
    hw.output %0, %1, %2 : i8, i8, i8
  }
}
