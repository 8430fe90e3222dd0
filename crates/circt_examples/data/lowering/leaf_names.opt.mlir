// an integer's name is taken by a leaf before it
module {
  hw.module @T(in %a_1 : i8, in %a_0 : i8, in %a_0_0 : i8, out o : i8) {
    hw.output %a_0_0 : i8
  }
}
// -----
// a leaf's name is taken by an integer before it
module {
  hw.module @T(in %a_0 : i8, in %a_1 : i8, in %a_0_0 : i8, out o : i8) {
    hw.output %a_0 : i8
  }
}
// -----
// names with numbers that are taken too
module {
  hw.module @T(in %s_x : i1, in %s_x_0 : i1, in %s_x_1 : i1, in %s_x_1_0 : i1, out o : i1) {
    %0 = comb.add %s_x_0, %s_x_1, %s_x_1_0 : i1
    hw.output %0 : i1
  }
}
// -----
// an output beside an input
module {
  hw.module @T(in %a_0 : i8, out a_0_0 : i8, out a__0 : i8) {
    %false = hw.constant false
    %false_0 = hw.constant false
    %0 = comb.icmp eq %false, %false_0 : i1
    %c0_i8 = hw.constant 0 : i8
    %1 = comb.mux %0, %a_0, %c0_i8 : i8
    hw.output %1, %a_0 : i8, i8
  }
}
// -----
// two levels that spell one name
module {
  hw.module @T(in %a_b_c : i8, in %a_b_c_0 : i8, in %a_b_c_0_0 : i8, out o : i8) {
    %0 = comb.add %a_b_c, %a_b_c_0, %a_b_c_0_0 : i8
    hw.output %0 : i8
  }
}
// -----
// a port without a name, and names that are no values' names
module {
  hw.module @T(in %_x : i8, in %_b_b_y_y "b b_y y" : i8, in %_b_b_z "b b_z" : i8, out "o o_0" : i8) {
    hw.output %_b_b_z : i8
  }
}
// -----
// a wire and a register of the port's name: their leaves keep it, and their values have other ones
module {
  hw.module @T(in %clk : !seq.clock, in %a_1 : i8, in %a_0 : i8) {
    %a_1_0 = hw.wire %a_1 {name = "a_1"} : i8
    %a_0_0 = hw.wire %a_0 {name = "a_0"} : i8
    %a_1_1 = seq.compreg %a_1_0, %clk {name = "a_1"} : i8
    %a_0_1 = seq.compreg %a_0_0, %clk {name = "a_0"} : i8
    hw.output
  }
}
// -----
// an array of eleven elements, of two digits, and a clock
module {
  hw.module @T(in %clk : !seq.clock, in %a_10 : i1, in %a_9 : i1, in %a_8 : i1, in %a_7 : i1, in %a_6 : i1, in %a_5 : i1, in %a_4 : i1, in %a_3 : i1, in %a_2 : i1, in %a_1 : i1, in %a_0 : i1) {
    hw.output
  }
}
