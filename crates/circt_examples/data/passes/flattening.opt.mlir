// two instances of one module, in their places
module {
  hw.module @T(in %clk : !seq.clock, in %rst : i1, in %en : i1, in %d : i8, out a : i8, out b : i8) {
    %c9_i8 = hw.constant 9 : i8
    %u1_r = seq.compreg.ce %d, %clk, %en reset %rst, %c9_i8 : i8
    %c9_i8_0 = hw.constant 9 : i8
    %u2_r = seq.compreg.ce %u1_r, %clk, %en reset %rst, %c9_i8_0 : i8
    hw.output %u1_r, %u2_r : i8, i8
  }
}
// -----
// instances three deep, callees first; a module that nothing instances goes
module {
  hw.module @T(in %clk : !seq.clock, in %d : i8, out q : i8) {
    %u_v_w_r = seq.compreg %d, %clk : i8
    %u_s = hw.wire %u_v_w_r : i8
    hw.output %u_s : i8
  }
}
// -----
// an instance without a name
module {
  hw.module @T(in %clk : !seq.clock, in %d : i8, out q : i8) {
    %u__n = seq.compreg %d, %clk : i8
    hw.output %u__n : i8
  }
}
// -----
// a register without a name gets none
module {
  hw.module @T(in %clk : !seq.clock, in %d : i8, out q : i8) {
    %0 = seq.compreg %d, %clk : i8
    %1 = comb.add %0, %d : i8
    hw.output %1 : i8
  }
}
// -----
// an output that leads back into its instance through a register
module {
  hw.module @T(in %clk : !seq.clock, out q : i1) {
    %u_r = seq.compreg %u_r, %clk : i1
    hw.output %u_r : i1
  }
}
// -----
// outputs that are inputs, crossed and in a chain
module {
  hw.module @T(in %a : i8, in %b : i8, out o : i8, out p : i8) {
    hw.output %a, %b : i8, i8
  }
}
// -----
// values that stand above what they use
module {
  hw.module @T(in %a : i8, out o : i8) {
    %0 = comb.mul %1, %a : i8
    %1 = comb.add %2, %a : i8
    %2 = comb.sub %a, %3 : i8
    %3 = comb.shl %a, %a : i8
    hw.output %0 : i8
  }
}
// -----
// instances of public modules stay, also in what is inlined
module {
  hw.module @T(in %a : i8, out o : i8, out p : i8) {
    %u_w.o = hw.instance "u_w" @Q(a: %a: i8) -> (o: i8)
    %v.o = hw.instance "v" @Q(a: %a: i8) -> (o: i8)
    hw.output %u_w.o, %v.o : i8, i8
  }
  hw.module @Q(in %a : i8, out o : i8) {
    hw.output %a : i8
  }
}
// -----
// hints and dictionaries: the instance's goes, those of what is inlined stay
module {
  hw.module @T(in %a : i8, out o : i8) {
    %0 = comb.add %a, %a {j, sv.namehint = "u_sum"} : i8
    hw.output %0 : i8
  }
}
// -----
// no private module
module {
  hw.module @T(in %a : i8, out o : i8) {
    %u.o = hw.instance "u" @Q(a: %a: i8) -> (o: i8)
    hw.output %u.o : i8
  }
  hw.module @Q(in %a : i8, out o : i8) {
    %0 = comb.add %a, %a : i8
    hw.output %0 : i8
  }
}
