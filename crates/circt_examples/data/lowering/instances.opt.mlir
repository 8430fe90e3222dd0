// an instance before its module
module {
  hw.module @T(in %s_x : i8, in %s_y : i4, out o_1 : i8, out o_0 : i8) {
    %u.p_1, %u.p_0 = hw.instance "u" @C(a_x: %s_x: i8, a_y: %s_y: i4) -> (p_1: i8, p_0: i8)
    hw.output %u.p_1, %u.p_0 : i8, i8
  }
  hw.module private @C(in %a_x : i8, in %a_y : i4, out p_1 : i8, out p_0 : i8) {
    hw.output %a_x, %a_x : i8, i8
  }
}
// -----
// an instance after its module, whose leaves' names are taken; symbol and dictionary stay, and so do integers and clocks
module {
  hw.module @C(in %clk : !seq.clock, in %a_0 : i8, in %a_0_0 : i8, out a_1 : i8, out b_x : i8, out b_x_0 : i8) {
    %r_0 = seq.compreg %a_0, %clk : i8
    hw.output %a_0_0, %a_0_0, %a_0_0 : i8, i8, i8
  }
  hw.module @T(in %clk : !seq.clock, in %v_0 : i8, in %w : i8, out o : i8, out s_x : i8) {
    %u.a_1, %u.b_x, %u.b_x_0 = hw.instance "u" sym @inner @C(clk: %clk: !seq.clock, a_0: %v_0: i8, a_0_0: %w: i8) -> (a_1: i8, b_x: i8, b_x_0: i8) {k}
    hw.output %u.a_1, %u.b_x : i8, i8
  }
}
// -----
// two instances of one module, one after the other, through elements that are taken out and put in
module {
  hw.module private @C(in %a_1 : i8, in %a_0 : i8, out p : i8, out q_1 : i8, out q_0 : i8) {
    %false = hw.constant false
    %false_0 = hw.constant false
    %0 = comb.icmp eq %false, %false_0 : i1
    %true = hw.constant true
    %1 = comb.icmp eq %false, %true : i1
    %c0_i8 = hw.constant 0 : i8
    %2 = comb.mux %1, %a_1, %c0_i8 : i8
    %3 = comb.mux %0, %a_0, %2 : i8
    hw.output %3, %a_1, %a_0 : i8, i8, i8
  }
  hw.module @T(in %a_1 : i8, in %a_0 : i8, out o : i8) {
    %u.p, %u.q_1, %u.q_0 = hw.instance "u" @C(a_1: %a_1: i8, a_0: %a_0: i8) -> (p: i8, q_1: i8, q_0: i8)
    %v.p, %v.q_1, %v.q_0 = hw.instance "v" @C(a_1: %u.p: i8, a_0: %u.p: i8) -> (p: i8, q_1: i8, q_0: i8)
    hw.output %v.p : i8
  }
}
// -----
// instances three deep
module {
  hw.module @A(in %s_x : i1, out o_x : i1) {
    %u.o_x = hw.instance "u" @B(s_x: %s_x: i1) -> (o_x: i1)
    hw.output %u.o_x : i1
  }
  hw.module @C(in %s_x : i1, out o_x : i1) {
    hw.output %s_x : i1
  }
  hw.module @B(in %s_x : i1, out o_x : i1) {
    %u.o_x = hw.instance "u" @C(s_x: %s_x: i1) -> (o_x: i1)
    hw.output %u.o_x : i1
  }
}
// -----
// an instance of a module without aggregates, with operands that lowered operations gave
module {
  hw.module @T(in %s_x : i8, in %s_y : i8, out o : i8) {
    %u.c = hw.instance "u" @Add8(a: %s_y: i8, b: %s_x: i8) -> (c: i8)
    hw.output %u.c : i8
  }
  hw.module @Add8(in %a : i8, in %b : i8, out c : i8) attributes {k} {
    %0 = comb.add bin %a, %b {sv.namehint = "sum"} : i8
    hw.output %0 {e} : i8
  }
}
