// an instance of a module with a register of a struct, lowered and flattened in either order
module {
  hw.module @T(in %clk : !seq.clock, in %s_x : i8, in %s_y : i8, out o_x : i8, out o_y : i8) {
    %u_r_x = seq.compreg %s_x, %clk : i8
    %u_r_y = seq.compreg %s_y, %clk : i8
    hw.output %u_r_x, %u_r_y : i8, i8
  }
}
