// a register of an array of one element
module {
  hw.module @T(in %clk : !seq.clock, in %d_0 : i8, out q_0 : i8) {
    %r_0 = seq.compreg %d_0, %clk : i8
    hw.output %r_0 : i8
  }
}
// -----
// a register of an array with enable and reset
module {
  hw.module @T(in %clk : !seq.clock, in %rst : i1, in %en : i1, in %d_1 : i8, in %d_0 : i8, in %v_1 : i8, in %v_0 : i8, out q_1 : i8, out q_0 : i8) {
    %r_1 = seq.compreg.ce %d_1, %clk, %en reset %rst, %v_1 : i8
    %r_0 = seq.compreg.ce %d_0, %clk, %en reset %rst, %v_0 : i8
    hw.output %r_1, %r_0 : i8, i8
  }
}
// -----
// a register with an enable, and one with a reset
module {
  hw.module @T(in %clk : !seq.clock, in %en : i1, in %d_2 : i1, in %d_1 : i1, in %d_0 : i1, out q_2 : i1, out q_1 : i1, out q_0 : i1, out p_2 : i1, out p_1 : i1, out p_0 : i1) {
    %r_2 = seq.compreg.ce %d_2, %clk, %en : i1
    %r_1 = seq.compreg.ce %d_1, %clk, %en : i1
    %r_0 = seq.compreg.ce %d_0, %clk, %en : i1
    %s_2 = seq.compreg %r_2, %clk reset %en, %d_2 : i1
    %s_1 = seq.compreg %r_1, %clk reset %en, %d_1 : i1
    %s_0 = seq.compreg %r_0, %clk reset %en, %d_0 : i1
    hw.output %r_2, %r_1, %r_0, %s_2, %s_1, %s_0 : i1, i1, i1, i1, i1, i1
  }
}
// -----
// a seq.firreg of five elements with a synchronous reset
module {
  hw.module @T(in %clk : !seq.clock, in %rst : i1, in %d_4 : i2, in %d_3 : i2, in %d_2 : i2, in %d_1 : i2, in %d_0 : i2, out q_4 : i2, out q_3 : i2, out q_2 : i2, out q_1 : i2, out q_0 : i2) {
    %r_4 = seq.firreg %d_4 clock %clk reset sync %rst, %d_4 : i2
    %r_3 = seq.firreg %d_3 clock %clk reset sync %rst, %d_3 : i2
    %r_2 = seq.firreg %d_2 clock %clk reset sync %rst, %d_2 : i2
    %r_1 = seq.firreg %d_1 clock %clk reset sync %rst, %d_1 : i2
    %r_0 = seq.firreg %d_0 clock %clk reset sync %rst, %d_0 : i2
    hw.output %r_4, %r_3, %r_2, %r_1, %r_0 : i2, i2, i2, i2, i2
  }
}
// -----
// a seq.firreg with an asynchronous reset, whose value is a constant for each leaf
module {
  hw.module @T(in %clk : !seq.clock, in %rst : i1, in %d_x : i8, in %d_y_1 : i4, in %d_y_0 : i4, out q_x : i8, out q_y_1 : i4, out q_y_0 : i4) {
    %r_x = seq.firreg %d_x clock %clk reset async %rst, %c1_i8 : i8
    %r_y_1 = seq.firreg %d_y_1 clock %clk reset async %rst, %c2_i4 : i4
    %r_y_0 = seq.firreg %d_y_0 clock %clk reset async %rst, %c3_i4 : i4
    %c1_i8 = hw.constant 1 : i8
    %c2_i4 = hw.constant 2 : i4
    %c3_i4 = hw.constant 3 : i4
    hw.output %r_x, %r_y_1, %r_y_0 : i8, i4, i4
  }
}
// -----
// a seq.firreg without a name, and with a dictionary, which goes
module {
  hw.module @T(in %clk : !seq.clock, in %d_x : i4, in %d_y : i4, out q_x : i4, out q_y : i4) {
    %0 = seq.firreg %d_x clock %clk : i4
    %1 = seq.firreg %d_y clock %clk : i4
    hw.output %0, %1 : i4, i4
  }
}
// -----
// registers that take one another's values, changed
module {
  hw.module @T(in %clk : !seq.clock, in %i : i1, in %v : i8, out q_1 : i8, out q_0 : i8) {
    %r_1 = seq.compreg %2, %clk : i8
    %r_0 = seq.compreg %3, %clk : i8
    %false = hw.constant false
    %0 = comb.icmp eq %i, %false : i1
    %true = hw.constant true
    %1 = comb.icmp eq %i, %true : i1
    %2 = comb.mux %1, %v, %s_1 : i8
    %3 = comb.mux %0, %v, %s_0 : i8
    %s_1 = seq.compreg %r_1, %clk : i8
    %s_0 = seq.compreg %r_0, %clk : i8
    hw.output %s_1, %s_0 : i8, i8
  }
}
// -----
// names of a register's leaves that are taken
module {
  hw.module @T(in %clk : !seq.clock, in %d_x : i4, in %e : i4) {
    %r_x = seq.compreg %d_x, %clk : i4
    %r_x_0 = seq.compreg %e, %clk {name = "r_x"} : i4
    hw.output
  }
}
// -----
// a register of an integer beside them, with operands that lowered operations gave, keeps its dictionary
module {
  hw.module @T(in %clk : !seq.clock, in %s_d : i8, in %s_en : i1, in %s_rst : i1, in %s_v : i8, out q : i8) {
    %r = seq.compreg.ce %s_d, %clk, %s_en reset %s_rst, %s_v {k} : i8
    hw.output %r : i8
  }
}
