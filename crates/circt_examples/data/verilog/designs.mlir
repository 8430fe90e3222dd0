// a sum of 8 bits
hw.module @Add8(in %a : i8, in %b : i8, out c : i8) {
  %0 = comb.add %a, %b : i8
  hw.output %0 : i8
}
// -----
// a module without ports
hw.module @M() {}
// -----
// an empty text
// -----
// a constant of 8 bits
hw.module @K(out c : i8) {
  %x = hw.constant 255 : i8
  hw.output %x : i8
}
// -----
// an extract of the only bit
hw.module @N(in %x : i1, out c : i1) {
  %0 = comb.extract %x from 0 : (i1) -> i1
  hw.output %0 : i1
}
// -----
// a sum and a shift by 200 of 128 bits
hw.module @W(in %a : i128, in %b : i128, out s : i128, out t : i128) {
  %k = hw.constant 200 : i128
  %0 = comb.add %a, %b : i128
  %1 = comb.shl %a, %k : i128
  hw.output %0, %1 : i128, i128
}
// -----
// ports with Verilog's reserved words as names
hw.module @R(in %reg : i1, in %reg_0 : i1, out c : i1) {
  %0 = comb.and %reg, %reg_0 : i1
  hw.output %0 : i1
}
// -----
// an instance whose output is its input, through a register
hw.module private @D(in %clk : !seq.clock, in %d : i1, out q : i1) {
  %r = seq.compreg %d, %clk : i1
  hw.output %r : i1
}
hw.module @P(in %clk : !seq.clock, out o : i1) {
  %u.q = hw.instance "u" @D(clk: %clk: !seq.clock, d: %u.q: i1) -> (q: i1)
  hw.output %u.q : i1
}
// -----
// two instances of a register with enable and reset, one after the other
hw.module private @Reg(in %clk : !seq.clock, in %rst : i1, in %en : i1, in %d : i8, out q : i8) {
  %z = hw.constant 9 : i8
  %r = seq.compreg.ce %d, %clk, %en reset %rst, %z : i8
  hw.output %r : i8
}
hw.module @Two(in %clk : !seq.clock, in %rst : i1, in %en : i1, in %d : i8, out a : i8, out b : i8) {
  %u1.q = hw.instance "u1" @Reg(clk: %clk: !seq.clock, rst: %rst: i1, en: %en: i1, d: %d: i8) -> (q: i8)
  %u2.q = hw.instance "u2" @Reg(clk: %clk: !seq.clock, rst: %rst: i1, en: %en: i1, d: %u1.q: i8) -> (q: i8)
  hw.output %u1.q, %u2.q : i8, i8
}
// -----
// a register of each of two clocks
hw.module @Clocks(in %c1 : !seq.clock, in %c2 : !seq.clock, in %d : i4, out q : i4) {
  %r = seq.compreg %d, %c1 : i4
  %s = seq.compreg %r, %c2 : i4
  hw.output %s : i4
}
// -----
// two outputs that are an input
hw.module @Through(in %a : i8, out x : i8, out y : i8) {
  hw.output %a, %a : i8, i8
}
// -----
// three modules, one private, in a list
builtin.module {
  hw.module private @A() {}
  hw.module @B(in %x : i1) {}
  hw.module @C() {}
}
