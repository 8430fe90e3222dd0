// an empty module
module {
  hw.module @T() {
    hw.output
  }
}
// -----
// operations on integers keep hints, dictionaries and the mark `bin`
module {
  hw.module @T(in %clk : !seq.clock, in %a : i8, in %b : i8, out o : i8) attributes {k} {
    %0 = comb.add bin %a, %b {sv.namehint = "sum"} : i8
    %w = hw.wire %0 {k} : i8
    %1 = hw.bitcast %w {sv.namehint = "same"} : (i8) -> i8
    %r = seq.compreg %1, %clk {k} : i8
    hw.output %r {e} : i8
  }
  hw.module private @P(in %_x_x "x x" : i1) {
    hw.output
  }
}
// -----
// operations on integers keep them beside a struct too
module {
  hw.module @T(in %a : i8, in %s_x : i8, out o : i8) attributes {k} {
    %0 = comb.add bin %a, %s_x {sv.namehint = "sum"} : i8
    %1 = hw.bitcast %0 {sv.namehint = "same"} : (i8) -> i8
    hw.output %1 {e} : i8
  }
}
// -----
// what is made of aggregates has neither a hint nor a dictionary nor the mark `bin`
module {
  hw.module @T(in %c : i1, in %a_0 : i8, out o : i8, out p_0 : i8) {
    %false = hw.constant false
    %0 = comb.icmp eq %c, %false : i1
    %c0_i8 = hw.constant 0 : i8
    %1 = comb.mux %0, %a_0, %c0_i8 : i8
    %2 = comb.mux %c, %a_0, %a_0 : i8
    %w_0 = hw.wire %2 : i8
    %3 = comb.extract %w_0 from 0 : (i8) -> i8
    hw.output %1, %3 {e} : i8, i8
  }
}
// -----
// what nothing uses is made all the same
module {
  hw.module @T(in %c : i1, in %a_0 : i8) {
    %false = hw.constant false
    %0 = comb.icmp eq %c, %false : i1
    %c0_i8 = hw.constant 0 : i8
    %1 = comb.mux %0, %a_0, %c0_i8 : i8
    %c1_i8 = hw.constant 1 : i8
    %c2_i8 = hw.constant 2 : i8
    hw.output
  }
}
