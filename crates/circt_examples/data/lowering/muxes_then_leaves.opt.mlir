// registers first: the muxes of the struct become those of its leaves, each in its place
module {
  hw.module @T(in %clk : !seq.clock, in %rst : i1, in %en : i1, in %d_x : i4, in %d_y : i4, in %v_x : i4, in %v_y : i4, out q_x : i4, out q_y : i4) {
    %0 = comb.mux %en, %d_x, %r_x : i4
    %1 = comb.mux %en, %d_y, %r_y : i4
    %2 = comb.mux %rst, %v_x, %0 : i4
    %3 = comb.mux %rst, %v_y, %1 : i4
    %r_x = seq.compreg %2, %clk : i4
    %r_y = seq.compreg %3, %clk : i4
    hw.output %r_x, %r_y : i4, i4
  }
}
