// a register with an enable, against a mux before a register
hw.module @p(in %clk : !seq.clock, in %en : i1, in %d : i8, out q : i8) {
  %r = seq.compreg.ce %d, %clk, %en : i8
  hw.output %r : i8
}
hw.module @q(in %clk : !seq.clock, in %en : i1, in %d : i8, out q : i8) {
  %0 = comb.mux %en, %d, %r : i8
  %r = seq.compreg %0, %clk : i8
  hw.output %r : i8
}
// -----
// a register with an enable and a synchronous reset, against a mux of the enable before one of the reset
hw.module @p(in %clk : !seq.clock, in %rst : i1, in %en : i1, in %d : i8, out q : i8) {
  %z = hw.constant 9 : i8
  %r = seq.compreg.ce %d, %clk, %en reset %rst, %z : i8
  hw.output %r : i8
}
hw.module @q(in %clk : !seq.clock, in %rst : i1, in %en : i1, in %d : i8, out q : i8) {
  %z = hw.constant 9 : i8
  %0 = comb.mux %en, %d, %r : i8
  %1 = comb.mux %rst, %z, %0 : i8
  %r = seq.compreg %1, %clk : i8
  hw.output %r : i8
}
// -----
// a register with an enable and a synchronous reset, against a mux of the reset before one of the enable
hw.module @p(in %clk : !seq.clock, in %rst : i1, in %en : i1, in %d : i8, out q : i8) {
  %z = hw.constant 9 : i8
  %r = seq.compreg.ce %d, %clk, %en reset %rst, %z : i8
  hw.output %r : i8
}
hw.module @q(in %clk : !seq.clock, in %rst : i1, in %en : i1, in %d : i8, out q : i8) {
  %z = hw.constant 9 : i8
  %0 = comb.mux %rst, %z, %d : i8
  %1 = comb.mux %en, %0, %r : i8
  %r = seq.compreg %1, %clk : i8
  hw.output %r : i8
}
// -----
// two registers, against the same in the other order: registers are told by their order
hw.module @p(in %clk : !seq.clock, in %a : i8, in %b : i8, out p : i8, out q : i8) {
  %r = seq.compreg %a, %clk : i8
  %s = seq.compreg %b, %clk : i8
  hw.output %r, %s : i8, i8
}
hw.module @q(in %clk : !seq.clock, in %a : i8, in %b : i8, out p : i8, out q : i8) {
  %s = seq.compreg %b, %clk : i8
  %r = seq.compreg %a, %clk : i8
  hw.output %r, %s : i8, i8
}
// -----
// registers of different inputs that no output shows
hw.module @p(in %clk : !seq.clock, in %a : i8, in %b : i8) {
  %r = seq.compreg %a, %clk : i8
  hw.output
}
hw.module @q(in %clk : !seq.clock, in %a : i8, in %b : i8) {
  %r = seq.compreg %b, %clk : i8
  hw.output
}
// -----
// registers of different clocks: where a clock is 0 nothing is taken
hw.module @p(in %clk : !seq.clock, in %other : !seq.clock, in %a : i8, out q : i8) {
  %r = seq.compreg %a, %clk : i8
  hw.output %r : i8
}
hw.module @q(in %clk : !seq.clock, in %other : !seq.clock, in %a : i8, out q : i8) {
  %r = seq.compreg %a, %other : i8
  hw.output %r : i8
}
// -----
// an asynchronous reset, against a synchronous one: the former shows at once
hw.module @p(in %clk : !seq.clock, in %rst : i1, in %a : i8, out q : i8) {
  %z = hw.constant 9 : i8
  %r = seq.firreg %a clock %clk reset async %rst, %z : i8
  hw.output %r : i8
}
hw.module @q(in %clk : !seq.clock, in %rst : i1, in %a : i8, out q : i8) {
  %z = hw.constant 9 : i8
  %r = seq.firreg %a clock %clk reset sync %rst, %z : i8
  hw.output %r : i8
}
// -----
// an asynchronous reset, against a mux of the reset after it: what is read is its value
hw.module @p(in %clk : !seq.clock, in %rst : i1, in %a : i8, out q : i8) {
  %z = hw.constant 9 : i8
  %r = seq.firreg %a clock %clk reset async %rst, %z : i8
  hw.output %r : i8
}
hw.module @q(in %clk : !seq.clock, in %rst : i1, in %a : i8, out q : i8) {
  %z = hw.constant 9 : i8
  %r = seq.firreg %a clock %clk reset async %rst, %z : i8
  %0 = comb.mux %rst, %z, %r : i8
  hw.output %0 : i8
}
// -----
// seq.firreg without a reset, against seq.compreg
hw.module @p(in %clk : !seq.clock, in %a : i8, out q : i8) {
  %r = seq.firreg %a clock %clk : i8
  hw.output %r : i8
}
hw.module @q(in %clk : !seq.clock, in %a : i8, out q : i8) {
  %r = seq.compreg %a, %clk : i8
  hw.output %r : i8
}
