// RUN: circt opt
// RUN: circt translate --export-verilog
// RUN: circt translate --export-verilog --canonicalize
// RUN: circt translate --export-verilog --cse
// RUN: circt translate --export-verilog --seq-lower-regs
// RUN: circt translate --export-verilog --hw-flatten-modules
// RUN: circt translate --export-verilog --seq-lower-regs --hw-flatten-modules --cse --canonicalize --symbol-dce --cse
// a register with a synchronous reset
hw.module @T(in %clk : !seq.clock, in %rst : i1, in %d : i8, out q : i8) {
  %z = hw.constant 9 : i8
  %r = seq.firreg %d clock %clk reset sync %rst, %z : i8
  hw.output %r : i8
}
// -----
// a register with an asynchronous reset, in an instance
hw.module private @Reg(in %clk : !seq.clock, in %rst : i1, in %d : i8, out q : i8) {
  %z = hw.constant 9 : i8
  %r = seq.firreg %d clock %clk reset async %rst, %z : i8
  hw.output %r : i8
}
hw.module @T(in %clk : !seq.clock, in %stop : i1, in %d : i8, out q : i8) {
  %u.q = hw.instance "u" @Reg(clk: %clk: !seq.clock, rst: %stop: i1, d: %d: i8) -> (q: i8)
  hw.output %u.q : i8
}
// -----
// two instances of a register with enable and reset, one after the other
hw.module private @Reg(in %clk : !seq.clock, in %rst : i1, in %en : i1, in %d : i8, out q : i8) {
  %z = hw.constant 9 : i8
  %r = seq.compreg.ce %d, %clk, %en reset %rst, %z : i8
  hw.output %r : i8
}
hw.module @Two(in %clk : !seq.clock, in %rst : i1, in %en : i1, in %d : i8, out a : i8, out b : i8) {
  %u1.q = hw.instance "u1" @Reg(clk: %clk: !seq.clock, rst: %rst: i1, en: %en: i1, d: %d: i8) -> (q: i8)
  %u2.q = hw.instance "u2" @Reg(clk: %clk: !seq.clock, rst: %rst: i1, en: %en: i1, d: %u1.q: i8) -> (q: i8)
  hw.output %u1.q, %u2.q : i8, i8
}
// -----
// a register of each of two clocks
hw.module @T(in %c1 : !seq.clock, in %c2 : !seq.clock, in %d : i4, out o : i4) {
  %r = seq.compreg %d, %c1 : i4
  %s = seq.compreg %r, %c2 : i4
  hw.output %s : i4
}
// -----
// an arithmetic shift by a value, in an xor
hw.module @T(in %a : i8, in %b : i8, in %c : i8, out o : i8) {
  %0 = comb.shrs %a, %b : i8
  %1 = comb.xor %0, %c : i8
  hw.output %1 : i8
}
// -----
// a signed quotient by -3, shifted by a value
hw.module @T(in %a : i8, in %b : i8, out o : i8) {
  %k = hw.constant -3 : i8
  %0 = comb.divs %a, %k : i8
  %1 = comb.shru %0, %b : i8
  hw.output %1 : i8
}
