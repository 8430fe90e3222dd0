// an element of an array of three
module {
  hw.module @Pick(in %a_2 : i8, in %a_1 : i8, in %a_0 : i8, in %i : i2, out c : i8) {
    %c0_i2 = hw.constant 0 : i2
    %0 = comb.icmp eq %i, %c0_i2 : i2
    %c1_i2 = hw.constant 1 : i2
    %1 = comb.icmp eq %i, %c1_i2 : i2
    %c-2_i2 = hw.constant -2 : i2
    %2 = comb.icmp eq %i, %c-2_i2 : i2
    %c0_i8 = hw.constant 0 : i8
    %3 = comb.mux %2, %a_2, %c0_i8 : i8
    %4 = comb.mux %1, %a_1, %3 : i8
    %5 = comb.mux %0, %a_0, %4 : i8
    hw.output %5 : i8
  }
}
// -----
// a struct taken apart below where its fields are used
module {
  hw.module @E(in %s_x : i8, in %s_y : i8, out c : i8) {
    %0 = comb.sub %s_y, %s_x : i8
    hw.output %0 : i8
  }
}
// -----
// 16 bits to an array of two and to a struct
module {
  hw.module @B(in %x : i16, out h : i8, out s_p : i8, out s_q : i8) {
    %true = hw.constant true
    %0 = comb.extract %x from 8 : (i16) -> i8
    %1 = comb.extract %x from 0 : (i16) -> i8
    %false = hw.constant false
    %2 = comb.icmp eq %true, %false : i1
    %true_0 = hw.constant true
    %3 = comb.icmp eq %true, %true_0 : i1
    %c0_i8 = hw.constant 0 : i8
    %4 = comb.mux %3, %0, %c0_i8 : i8
    %5 = comb.mux %2, %1, %4 : i8
    %6 = comb.extract %x from 8 : (i16) -> i8
    %7 = comb.extract %x from 0 : (i16) -> i8
    hw.output %5, %6, %7 : i8, i8, i8
  }
}
// -----
// a register of a struct
module {
  hw.module @L(in %clk : !seq.clock, in %d_x : i4, in %d_y : i4, out q_x : i4, out q_y : i4) {
    %r_x = seq.compreg %d_x, %clk : i4
    %r_y = seq.compreg %d_y, %clk : i4
    hw.output %r_x, %r_y : i4, i4
  }
}
// -----
// a register of an integer has one leaf
module {
  hw.module @Reg(in %clk : !seq.clock, in %rst : i1, in %en : i1, in %d : i8, out q : i8) {
    %c9_i8 = hw.constant 9 : i8
    %r = seq.compreg.ce %d, %clk, %en reset %rst, %c9_i8 : i8
    hw.output %r : i8
  }
}
