// an aggregate_constant of one element
module {
  hw.module @T(out o_0 : i8) {
    %c5_i8 = hw.constant 5 : i8
    hw.output %c5_i8 : i8
  }
}
// -----
// an aggregate_constant of two: the first literal is that of the highest index
module {
  hw.module @T(out o_1 : i8, out o_0 : i8) {
    %c-1_i8 = hw.constant -1 : i8
    %c0_i8 = hw.constant 0 : i8
    hw.output %c-1_i8, %c0_i8 : i8, i8
  }
}
// -----
// an aggregate_constant of three: equal constants are not shared
module {
  hw.module @T(out o_2 : i8, out o_1 : i8, out o_0 : i8) {
    %c7_i8 = hw.constant 7 : i8
    %c6_i8 = hw.constant 6 : i8
    %c7_i8_0 = hw.constant 7 : i8
    hw.output %c7_i8, %c6_i8, %c7_i8_0 : i8, i8, i8
  }
}
// -----
// an aggregate_constant of five single bits
module {
  hw.module @T(out o_4 : i1, out o_3 : i1, out o_2 : i1, out o_1 : i1, out o_0 : i1) {
    %true = hw.constant true
    %false = hw.constant false
    %true_0 = hw.constant true
    %true_1 = hw.constant true
    %false_0 = hw.constant false
    hw.output %true, %false, %true_0, %true_1, %false_0 : i1, i1, i1, i1, i1
  }
}
// -----
// an aggregate_constant of lists in lists
module {
  hw.module @T(out o_p : i4, out o_q_1_x : i8, out o_q_1_y : i1, out o_q_0_x : i8, out o_q_0_y : i1) {
    %c1_i4 = hw.constant 1 : i4
    %c2_i8 = hw.constant 2 : i8
    %true = hw.constant true
    %c3_i8 = hw.constant 3 : i8
    %false = hw.constant false
    hw.output %c1_i4, %c2_i8, %true, %c3_i8, %false : i4, i8, i1, i8, i1
  }
}
// -----
// a mux of arrays of one element
module {
  hw.module @T(in %c : i1, in %x_0 : i8, in %y_0 : i8, out o_0 : i8) {
    %0 = comb.mux %c, %x_0, %y_0 : i8
    hw.output %0 : i8
  }
}
// -----
// a mux of arrays of three elements
module {
  hw.module @T(in %c : i1, in %x_2 : i8, in %x_1 : i8, in %x_0 : i8, in %y_2 : i8, in %y_1 : i8, in %y_0 : i8, out o_2 : i8, out o_1 : i8, out o_0 : i8) {
    %0 = comb.mux %c, %x_2, %y_2 : i8
    %1 = comb.mux %c, %x_1, %y_1 : i8
    %2 = comb.mux %c, %x_0, %y_0 : i8
    hw.output %0, %1, %2 : i8, i8, i8
  }
}
// -----
// a mux of an array of five elements and itself
module {
  hw.module @T(in %c : i1, in %x_4 : i2, in %x_3 : i2, in %x_2 : i2, in %x_1 : i2, in %x_0 : i2, out o_4 : i2, out o_3 : i2, out o_2 : i2, out o_1 : i2, out o_0 : i2) {
    %0 = comb.mux %c, %x_4, %x_4 : i2
    %1 = comb.mux %c, %x_3, %x_3 : i2
    %2 = comb.mux %c, %x_2, %x_2 : i2
    %3 = comb.mux %c, %x_1, %x_1 : i2
    %4 = comb.mux %c, %x_0, %x_0 : i2
    hw.output %0, %1, %2, %3, %4 : i2, i2, i2, i2, i2
  }
}
// -----
// a mux of structs that are made, with a condition that is taken out
module {
  hw.module @T(in %s_c : i1, in %s_v : i8, in %a : i8, out o : i8) {
    %0 = comb.mux %s_c, %s_c, %s_c : i1
    %1 = comb.mux %s_c, %s_v, %a : i8
    hw.output %1 : i8
  }
}
// -----
// a wire of an array of structs: its leaves have names after its own
module {
  hw.module @T(in %a_1_x : i8, in %a_1_y : i4, in %a_0_x : i8, in %a_0_y : i4, out o_1_x : i8, out o_1_y : i4, out o_0_x : i8, out o_0_y : i4) {
    %w_1_x = hw.wire %a_1_x : i8
    %w_1_y = hw.wire %a_1_y : i4
    %w_0_x = hw.wire %a_0_x : i8
    %w_0_y = hw.wire %a_0_y : i4
    hw.output %w_1_x, %w_1_y, %w_0_x, %w_0_y : i8, i4, i8, i4
  }
}
// -----
// a wire without a name: its leaves have none
module {
  hw.module @T(in %a_2 : i8, in %a_1 : i8, in %a_0 : i8, out o_2 : i8, out o_1 : i8, out o_0 : i8) {
    %0 = hw.wire %a_2 : i8
    %1 = hw.wire %a_1 : i8
    %2 = hw.wire %a_0 : i8
    hw.output %0, %1, %2 : i8, i8, i8
  }
}
// -----
// a wire with a name that is no value's name
module {
  hw.module @T(in %a_x : i8, out o_x : i8) {
    %_a_b_x = hw.wire %a_x {name = "a b_x"} : i8
    hw.output %_a_b_x : i8
  }
}
// -----
// a wire of an integer that a lowered operation gave
module {
  hw.module @T(in %s_x : i8, out o : i8) {
    %w = hw.wire %s_x {k} : i8
    hw.output %w : i8
  }
}
