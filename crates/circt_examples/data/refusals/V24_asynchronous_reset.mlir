// V24: the reset of a register is an operation's result
hw.module @T(in %clk : !seq.clock, in %rst : i1, in %d : i8, out q : i8) {
  %z = hw.constant 9 : i8
  %t = hw.constant true
  %n = comb.xor %rst, %t : i1
  %r = seq.firreg %d clock %clk reset async %n, %z : i8
  hw.output %r : i8
}
// -----
// V24: the reset of a register is a wire of a port
hw.module @T(in %clk : !seq.clock, in %rst : i1, in %d : i8, out q : i8) {
  %z = hw.constant 9 : i8
  %w = hw.wire %rst : i1
  %r = seq.firreg %d clock %clk reset async %w, %z : i8
  hw.output %r : i8
}
// -----
// V24: the reset of a register is a register
hw.module @T(in %clk : !seq.clock, in %rst : i1, in %d : i8, out q : i8) {
  %z = hw.constant 9 : i8
  %s = seq.compreg %rst, %clk : i1
  %r = seq.firreg %d clock %clk reset async %s, %z : i8
  hw.output %r : i8
}
// -----
// V24: the reset's value is a port
hw.module @T(in %clk : !seq.clock, in %rst : i1, in %d : i8, out q : i8) {
  %r = seq.firreg %d clock %clk reset async %rst, %d : i8
  hw.output %r : i8
}
// -----
// V24: the reset's value is a wire of a constant
hw.module @T(in %clk : !seq.clock, in %rst : i1, in %d : i8, out q : i8) {
  %z = hw.constant 9 : i8
  %w = hw.wire %z : i8
  %r = seq.firreg %d clock %clk reset async %rst, %w : i8
  hw.output %r : i8
}
// -----
// V24: the reset's value is the register itself
hw.module @T(in %clk : !seq.clock, in %rst : i1, in %d : i8, out q : i8) {
  %r = seq.firreg %d clock %clk reset async %rst, %r : i8
  hw.output %r : i8
}
// -----
// V24: an instance joins a reset to an operation's result
hw.module private @Reg(in %clk : !seq.clock, in %rst : i1, in %d : i8, out q : i8) {
  %z = hw.constant 9 : i8
  %r = seq.firreg %d clock %clk reset async %rst, %z : i8
  hw.output %r : i8
}
hw.module @Top(in %clk : !seq.clock, in %a : i1, in %b : i1, in %d : i8, out q : i8) {
  %0 = comb.and %a, %b : i1
  %u.q = hw.instance "u" @Reg(clk: %clk: !seq.clock, rst: %0: i1, d: %d: i8) -> (q: i8)
  hw.output %u.q : i8
}
// -----
// V24: an instance joins a reset to an operation's result, and its module stands later
hw.module @Top(in %clk : !seq.clock, in %a : i1, in %b : i1, in %d : i8, out q : i8) {
  %0 = comb.and %a, %b : i1
  %u.q = hw.instance "u" @Reg(clk: %clk: !seq.clock, rst: %0: i1, d: %d: i8) -> (q: i8)
  hw.output %u.q : i8
}
hw.module private @Reg(in %clk : !seq.clock, in %rst : i1, in %d : i8, out q : i8) {
  %z = hw.constant 9 : i8
  %r = seq.firreg %d clock %clk reset async %rst, %z : i8
  hw.output %r : i8
}
// -----
// V24: an instance joins a reset to a constant
hw.module private @Reg(in %clk : !seq.clock, in %rst : i1, in %d : i8, out q : i8) {
  %z = hw.constant 9 : i8
  %r = seq.firreg %d clock %clk reset async %rst, %z : i8
  hw.output %r : i8
}
hw.module @Top(in %clk : !seq.clock, in %a : i1, in %b : i1, in %d : i8, out q : i8) {
  %t = hw.constant true
  %u.q = hw.instance "u" @Reg(clk: %clk: !seq.clock, rst: %t: i1, d: %d: i8) -> (q: i8)
  hw.output %u.q : i8
}
// -----
// V24: the second of two instances joins a reset to an operation's result
hw.module private @Reg(in %clk : !seq.clock, in %rst : i1, in %d : i8, out q : i8) {
  %z = hw.constant 9 : i8
  %r = seq.firreg %d clock %clk reset async %rst, %z : i8
  hw.output %r : i8
}
hw.module @Top(in %clk : !seq.clock, in %a : i1, in %b : i1, in %d : i8, out q : i8) {
  %0 = comb.and %a, %b : i1
  %u.q = hw.instance "u" @Reg(clk: %clk: !seq.clock, rst: %a: i1, d: %d: i8) -> (q: i8)
  %v.q = hw.instance "v" @Reg(clk: %clk: !seq.clock, rst: %0: i1, d: %u.q: i8) -> (q: i8)
  hw.output %v.q : i8
}
// -----
// V24: an instance joins a reset to an operation's result through another module
hw.module private @Reg(in %clk : !seq.clock, in %rst : i1, in %d : i8, out q : i8) {
  %z = hw.constant 9 : i8
  %r = seq.firreg %d clock %clk reset async %rst, %z : i8
  hw.output %r : i8
}
hw.module private @Mid(in %clk : !seq.clock, in %x : i1, in %d : i8, out q : i8) {
  %u.q = hw.instance "u" @Reg(clk: %clk: !seq.clock, rst: %x: i1, d: %d: i8) -> (q: i8)
  hw.output %u.q : i8
}
hw.module @Top(in %clk : !seq.clock, in %a : i1, in %b : i1, in %d : i8, out q : i8) {
  %0 = comb.and %a, %b : i1
  %m.q = hw.instance "m" @Mid(clk: %clk: !seq.clock, x: %0: i1, d: %d: i8) -> (q: i8)
  hw.output %m.q : i8
}
// -----
// V24: an instance of its own module joins a reset to an operation's result
hw.module @T(in %clk : !seq.clock, in %rst : i1, in %d : i8, out q : i8) {
  %z = hw.constant 9 : i8
  %r = seq.firreg %d clock %clk reset async %rst, %z : i8
  %0 = comb.parity %d : i8
  %u.q = hw.instance "u" @T(clk: %clk: !seq.clock, rst: %0: i1, d: %r: i8) -> (q: i8)
  hw.output %u.q : i8
}
// -----
// V24: the reset port of the module between is not the one of that name
hw.module private @C(in %c : !seq.clock, in %d : i1, in %r : i1, out q : i1) {
  %true = hw.constant true
  %s = seq.firreg %d clock %c reset async %r, %true : i1
  hw.output %d : i1
}
hw.module private @M(in %c : !seq.clock, in %d : i1, in %r : i1, out q : i1) {
  %u.q = hw.instance "u" @C(c: %c: !seq.clock, d: %r: i1, r: %d: i1) -> (q: i1)
  hw.output %d : i1
}
hw.module @T(in %c : !seq.clock, in %d : i1, in %r : i1, out q : i1) {
  %0 = comb.and %d, %r : i1
  %u.q = hw.instance "u" @M(c: %c: !seq.clock, d: %0: i1, r: %r: i1) -> (q: i1)
  hw.output %d : i1
}
// -----
// V24: a reset value that is a port, after an instance of its own module
hw.module @T(in %c : !seq.clock, in %d : i1, in %r : i1, out q : i1) {
  %u.q = hw.instance "u" @T(c: %c: !seq.clock, d: %d: i1, r: %r: i1) -> (q: i1)
  %s = seq.firreg %d clock %c reset async %r, %d : i1
  hw.output %d : i1
}
// -----
// V24: a reset is joined to an operation's result through two instances
hw.module private @Low(out o : i1, in %c : !seq.clock, in %a : i1, in %b : i1) {
  %true = hw.constant true
  %s = seq.firreg %a clock %c reset async %b, %true : i1
  hw.output %a : i1
}
hw.module private @Middle(in %c : !seq.clock, in %a : i1, in %b : i1) {
  %u.o = hw.instance "u" @Low(c: %c: !seq.clock, a: %b: i1, b: %a: i1) -> (o: i1)
}
hw.module private @Top(in %c : !seq.clock, in %a : i1, in %b : i1) {
  hw.instance "u" @Middle(c: %c: !seq.clock, a: %b: i1, b: %a: i1) -> ()
}
hw.module @User(in %c : !seq.clock, in %x : i1, in %y : i1) {
  %0 = comb.and %x, %y : i1
  hw.instance "u" @Top(c: %c: !seq.clock, a: %x: i1, b: %0: i1) -> ()
}
// -----
// V24: a reset is joined to an operation's result through two instances, in the other text order
hw.module @User(in %c : !seq.clock, in %x : i1, in %y : i1) {
  %0 = comb.and %x, %y : i1
  hw.instance "u" @Top(c: %c: !seq.clock, a: %x: i1, b: %0: i1) -> ()
}
hw.module private @Top(in %c : !seq.clock, in %a : i1, in %b : i1) {
  hw.instance "u" @Middle(c: %c: !seq.clock, a: %b: i1, b: %a: i1) -> ()
}
hw.module private @Middle(in %c : !seq.clock, in %a : i1, in %b : i1) {
  %u.o = hw.instance "u" @Low(c: %c: !seq.clock, a: %b: i1, b: %a: i1) -> (o: i1)
}
hw.module private @Low(out o : i1, in %c : !seq.clock, in %a : i1, in %b : i1) {
  %true = hw.constant true
  %s = seq.firreg %a clock %c reset async %b, %true : i1
  hw.output %a : i1
}
// -----
// V24: a reset is joined to an operation's result through one instance, its module last
hw.module @User(in %c : !seq.clock, in %x : i1, in %y : i1) {
  %0 = comb.and %x, %y : i1
  hw.instance "u" @Middle(c: %c: !seq.clock, a: %0: i1, b: %x: i1) -> ()
}
hw.module private @Middle(in %c : !seq.clock, in %a : i1, in %b : i1) {
  %u.o = hw.instance "u" @Low(c: %c: !seq.clock, a: %b: i1, b: %a: i1) -> (o: i1)
}
hw.module private @Low(out o : i1, in %c : !seq.clock, in %a : i1, in %b : i1) {
  %true = hw.constant true
  %s = seq.firreg %a clock %c reset async %b, %true : i1
  hw.output %a : i1
}
// -----
// V24: a module within itself hands on each port by the other, the first to an operation's result
hw.module private @Loop(in %c : !seq.clock, in %a : i1, in %b : i1) {
  hw.instance "u" @Loop(c: %c: !seq.clock, a: %b: i1, b: %a: i1) -> ()
  %true = hw.constant true
  %s = seq.firreg %true clock %c reset async %a, %true : i1
}
hw.module @User(in %c : !seq.clock, in %x : i1, in %y : i1) {
  %0 = comb.and %x, %y : i1
  hw.instance "u" @Loop(c: %c: !seq.clock, a: %0: i1, b: %x: i1) -> ()
}
// -----
// V24: a module within itself hands on each port by the other, the second to an operation's result
hw.module private @Loop(in %c : !seq.clock, in %a : i1, in %b : i1) {
  hw.instance "u" @Loop(c: %c: !seq.clock, a: %b: i1, b: %a: i1) -> ()
  %true = hw.constant true
  %s = seq.firreg %true clock %c reset async %a, %true : i1
}
hw.module @User(in %c : !seq.clock, in %x : i1, in %y : i1) {
  %0 = comb.and %x, %y : i1
  hw.instance "u" @Loop(c: %c: !seq.clock, a: %x: i1, b: %0: i1) -> ()
}
// -----
// V24: the first of two reset ports of one instance, exchanged on the way
hw.module private @Pair(in %c : !seq.clock, in %a : i1, in %b : i1) {
  %true = hw.constant true
  %s = seq.firreg %true clock %c reset async %a, %true : i1
  %t = seq.firreg %true clock %c reset async %b, %true : i1
}
hw.module private @Top(out o : i1, in %c : !seq.clock, in %a : i1, in %b : i1) {
  hw.instance "u" @Pair(c: %c: !seq.clock, a: %b: i1, b: %a: i1) -> ()
  hw.output %a : i1
}
hw.module @User(in %c : !seq.clock, in %x : i1, in %y : i1) {
  %0 = comb.and %x, %y : i1
  %u.o = hw.instance "u" @Top(c: %c: !seq.clock, a: %0: i1, b: %x: i1) -> (o: i1)
}
// -----
// V24: the second of two reset ports of one instance, exchanged on the way
hw.module private @Pair(in %c : !seq.clock, in %a : i1, in %b : i1) {
  %true = hw.constant true
  %s = seq.firreg %true clock %c reset async %a, %true : i1
  %t = seq.firreg %true clock %c reset async %b, %true : i1
}
hw.module private @Top(out o : i1, in %c : !seq.clock, in %a : i1, in %b : i1) {
  hw.instance "u" @Pair(c: %c: !seq.clock, a: %b: i1, b: %a: i1) -> ()
  hw.output %a : i1
}
hw.module @User(in %c : !seq.clock, in %x : i1, in %y : i1) {
  %0 = comb.and %x, %y : i1
  %u.o = hw.instance "u" @Top(c: %c: !seq.clock, a: %x: i1, b: %0: i1) -> (o: i1)
}
// -----
// V24: one port is joined to both the data and the reset
hw.module private @Low(out o : i1, in %c : !seq.clock, in %a : i1, in %b : i1) {
  %true = hw.constant true
  %s = seq.firreg %a clock %c reset async %b, %true : i1
  hw.output %a : i1
}
hw.module private @Top(in %c : !seq.clock, in %a : i1, in %b : i1) {
  %u.o = hw.instance "u" @Low(c: %c: !seq.clock, a: %b: i1, b: %b: i1) -> (o: i1)
}
hw.module @User(in %c : !seq.clock, in %x : i1, in %y : i1) {
  %0 = comb.and %x, %y : i1
  hw.instance "u" @Top(c: %c: !seq.clock, a: %x: i1, b: %0: i1) -> ()
}
