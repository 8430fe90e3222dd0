// RUN: circt opt --hw-flatten-modules
// RUN: circt opt --pass-pipeline=builtin.module(hw-flatten-modules,symbol-dce,hw-flatten-modules)
// RUN: circt opt --hw-flatten-modules --workers=1
// RUN: circt opt --hw-flatten-modules --workers=2
// RUN: circt opt --hw-flatten-modules --workers=8
// RUN: circt opt --hw-flatten-modules --workers=64
// two instances of one module, in their places
module {
  hw.module @T(in %clk : !seq.clock, in %rst : i1, in %en : i1, in %d : i8, out a : i8, out b : i8) {
    %u1.q = hw.instance "u1" @Reg(clk: %clk: !seq.clock, rst: %rst: i1, en: %en: i1, d: %d: i8) -> (q: i8)
    %u2.q = hw.instance "u2" @Reg(clk: %clk: !seq.clock, rst: %rst: i1, en: %en: i1, d: %u1.q: i8) -> (q: i8)
    hw.output %u1.q, %u2.q : i8, i8
  }
  hw.module private @Reg(in %clk : !seq.clock, in %rst : i1, in %en : i1, in %d : i8, out q : i8) {
    %c9_i8 = hw.constant 9 : i8
    %r = seq.compreg.ce %d, %clk, %en reset %rst, %c9_i8 : i8
    hw.output %r : i8
  }
}
// -----
// instances three deep, callees first; a module that nothing instances goes
module {
  hw.module @T(in %clk : !seq.clock, in %d : i8, out q : i8) {
    %u.q = hw.instance "u" @A(clk: %clk: !seq.clock, d: %d: i8) -> (q: i8)
    hw.output %u.q : i8
  }
  hw.module private @C(in %clk : !seq.clock, in %d : i8, out q : i8) {
    %r = seq.compreg %d, %clk : i8
    hw.output %r : i8
  }
  hw.module private @B(in %clk : !seq.clock, in %d : i8, out q : i8) {
    %w.q = hw.instance "w" @C(clk: %clk: !seq.clock, d: %d: i8) -> (q: i8)
    hw.output %w.q : i8
  }
  hw.module private @Alone(in %d : i8, out q : i8) {
    hw.output %d : i8
  }
  hw.module private @A(in %clk : !seq.clock, in %d : i8, out q : i8) {
    %v.q = hw.instance "v" @B(clk: %clk: !seq.clock, d: %d: i8) -> (q: i8)
    %s = hw.wire %v.q : i8
    hw.output %s : i8
  }
}
// -----
// an instance without a name
module {
  hw.module @T(in %clk : !seq.clock, in %d : i8, out q : i8) {
    %u.q = hw.instance "u" @A(clk: %clk: !seq.clock, d: %d: i8) -> (q: i8)
    hw.output %u.q : i8
  }
  hw.module private @A(in %clk : !seq.clock, in %d : i8, out q : i8) {
    %0 = hw.instance "" @B(clk: %clk: !seq.clock, d: %d: i8) -> (q: i8)
    hw.output %0 : i8
  }
  hw.module private @B(in %clk : !seq.clock, in %d : i8, out q : i8) {
    %n = seq.compreg %d, %clk : i8
    hw.output %n : i8
  }
}
// -----
// a register without a name gets none
module {
  hw.module @T(in %clk : !seq.clock, in %d : i8, out q : i8) {
    %u.q = hw.instance "u" @A(clk: %clk: !seq.clock, d: %d: i8) -> (q: i8)
    hw.output %u.q : i8
  }
  hw.module private @A(in %clk : !seq.clock, in %d : i8, out q : i8) {
    %0 = seq.compreg %d, %clk : i8
    %1 = comb.add %0, %d : i8
    hw.output %1 : i8
  }
}
// -----
// an output that leads back into its instance through a register
module {
  hw.module @T(in %clk : !seq.clock, out q : i1) {
    %u.q = hw.instance "u" @D(clk: %clk: !seq.clock, d: %u.q: i1) -> (q: i1)
    hw.output %u.q : i1
  }
  hw.module private @D(in %clk : !seq.clock, in %d : i1, out q : i1) {
    %r = seq.compreg %d, %clk : i1
    hw.output %r : i1
  }
}
// -----
// outputs that are inputs, crossed and in a chain
module {
  hw.module @T(in %a : i8, in %b : i8, out o : i8, out p : i8) {
    %u.x, %u.y = hw.instance "u" @Cross(a: %a: i8, b: %u.x: i8) -> (x: i8, y: i8)
    %v.x, %v.y = hw.instance "v" @Cross(a: %u.y: i8, b: %b: i8) -> (x: i8, y: i8)
    hw.output %v.x, %v.y : i8, i8
  }
  hw.module private @Cross(in %a : i8, in %b : i8, out x : i8, out y : i8) {
    hw.output %a, %b : i8, i8
  }
}
// -----
// values that stand above what they use
module {
  hw.module @T(in %a : i8, out o : i8) {
    %0 = comb.mul %u.o, %a : i8
    %u.o = hw.instance "u" @P(a: %a: i8) -> (o: i8)
    hw.output %0 : i8
  }
  hw.module private @P(in %a : i8, out o : i8) {
    %0 = comb.add %1, %a : i8
    %1 = comb.sub %a, %2 : i8
    %2 = comb.shl %a, %a : i8
    hw.output %0 : i8
  }
}
// -----
// instances of public modules stay, also in what is inlined
module {
  hw.module @T(in %a : i8, out o : i8, out p : i8) {
    %u.o = hw.instance "u" @P(a: %a: i8) -> (o: i8)
    %v.o = hw.instance "v" @Q(a: %a: i8) -> (o: i8)
    hw.output %u.o, %v.o : i8, i8
  }
  hw.module private @P(in %a : i8, out o : i8) {
    %w.o = hw.instance "w" @Q(a: %a: i8) -> (o: i8)
    hw.output %w.o : i8
  }
  hw.module @Q(in %a : i8, out o : i8) {
    hw.output %a : i8
  }
}
// -----
// hints and dictionaries: the instance's goes, those of what is inlined stay
module {
  hw.module @T(in %a : i8, out o : i8) {
    %u.o = hw.instance "u" @P(a: %a: i8) -> (o: i8) {k}
    hw.output %u.o : i8
  }
  hw.module private @P(in %a : i8, out o : i8) {
    %0 = comb.add %a, %a {j, sv.namehint = "sum"} : i8
    hw.output %0 : i8
  }
}
// -----
// no private module
module {
  hw.module @T(in %a : i8, out o : i8) {
    %u.o = hw.instance "u" @Q(a: %a: i8) -> (o: i8)
    hw.output %u.o : i8
  }
  hw.module @Q(in %a : i8, out o : i8) {
    %0 = comb.add %a, %a : i8
    hw.output %0 : i8
  }
}
