// seq.compreg
hw.module @T(in %clk : !seq.clock, in %rst : i1, in %en : i1, in %d : i8, out q : i8) {
  %r = seq.compreg %d, %clk : i8
  hw.output %r : i8
}
// -----
// seq.compreg with a reset
hw.module @T(in %clk : !seq.clock, in %rst : i1, in %en : i1, in %d : i8, out q : i8) {
  %z = hw.constant 9 : i8
  %r = seq.compreg %d, %clk reset %rst, %z : i8
  hw.output %r : i8
}
// -----
// seq.compreg.ce, with an enable
hw.module @T(in %clk : !seq.clock, in %rst : i1, in %en : i1, in %d : i8, out q : i8) {
  %r = seq.compreg.ce %d, %clk, %en : i8
  hw.output %r : i8
}
// -----
// seq.compreg.ce with an enable and a reset
hw.module @T(in %clk : !seq.clock, in %rst : i1, in %en : i1, in %d : i8, out q : i8) {
  %z = hw.constant 9 : i8
  %r = seq.compreg.ce %d, %clk, %en reset %rst, %z : i8
  hw.output %r : i8
}
// -----
// seq.firreg
hw.module @T(in %clk : !seq.clock, in %rst : i1, in %en : i1, in %d : i8, out q : i8) {
  %r = seq.firreg %d clock %clk : i8
  hw.output %r : i8
}
// -----
// seq.firreg with a synchronous reset
hw.module @T(in %clk : !seq.clock, in %rst : i1, in %en : i1, in %d : i8, out q : i8) {
  %z = hw.constant 9 : i8
  %r = seq.firreg %d clock %clk reset sync %rst, %z : i8
  hw.output %r : i8
}
// -----
// registers without names
hw.module @T(in %clk : !seq.clock, in %rst : i1, in %en : i1, in %d : i8, out q : i8) {
  %0 = seq.compreg %d, %clk : i8
  %1 = seq.firreg %0 clock %clk : i8
  hw.output %1 : i8
}
// -----
// a register with an illegal name
hw.module @T(in %clk : !seq.clock, in %rst : i1, in %en : i1, in %d : i8, out q : i8) {
  %r = seq.compreg %d, %clk {name = "x y"} : i8
  hw.output %r : i8
}
// -----
// a register with an empty name, which is none
hw.module @T(in %clk : !seq.clock, in %rst : i1, in %en : i1, in %d : i8, out q : i8) {
  %r = seq.compreg %d, %clk {name = ""} : i8
  hw.output %r : i8
}
// -----
// a register with a hint, which is no name of a register
hw.module @T(in %clk : !seq.clock, in %rst : i1, in %en : i1, in %d : i8, out q : i8) {
  %0 = seq.compreg %d, %clk {sv.namehint = "x"} : i8
  hw.output %0 : i8
}
// -----
// a register with the name of a port
hw.module @T(in %clk : !seq.clock, in %rst : i1, in %en : i1, in %d : i8, out q : i8) {
  %0 = seq.compreg %d, %clk {name = "clk"} : i8
  hw.output %0 : i8
}
// -----
// a register with a reserved name
hw.module @T(in %clk : !seq.clock, in %rst : i1, in %en : i1, in %d : i8, out q : i8) {
  %reg = seq.compreg %d, %clk : i8
  hw.output %reg : i8
}
// -----
// two equal registers are both printed
hw.module @T(in %clk : !seq.clock, in %rst : i1, in %en : i1, in %d : i8, out q : i8) {
  %r = seq.compreg %d, %clk : i8
  %s = seq.compreg %d, %clk : i8
  hw.output %s : i8
}
// -----
// a register with a sum of its own value
hw.module @T(in %clk : !seq.clock, in %rst : i1, in %en : i1, in %d : i8, out q : i8) {
  %r = seq.compreg %0, %clk : i8
  %0 = comb.add %r, %d : i8
  hw.output %r : i8
}
// -----
// an enable that is an and
hw.module @T(in %clk : !seq.clock, in %rst : i1, in %en : i1, in %d : i8, out q : i8) {
  %0 = comb.and %en, %rst : i1
  %r = seq.compreg.ce %d, %clk, %0 : i8
  hw.output %r : i8
}
// -----
// an enable that is an and, of two registers, has a wire
hw.module @T(in %clk : !seq.clock, in %rst : i1, in %en : i1, in %d : i8, out q : i8) {
  %0 = comb.and %en, %rst : i1
  %r = seq.compreg.ce %d, %clk, %0 : i8
  %s = seq.compreg.ce %r, %clk, %0 : i8
  hw.output %s : i8
}
// -----
// a reset value that is an arithmetic shift
hw.module @T(in %clk : !seq.clock, in %rst : i1, in %en : i1, in %d : i8, out q : i8) {
  %k = hw.constant 1 : i8
  %0 = comb.shrs %d, %k : i8
  %r = seq.compreg %d, %clk reset %rst, %0 : i8
  hw.output %r : i8
}
// -----
// a reset value that is a constant with a wire of its own
hw.module @T(in %clk : !seq.clock, in %rst : i1, in %en : i1, in %d : i8, out q : i8) {
  %z = hw.constant 5 : i8
  %r = seq.compreg %d, %clk reset %rst, %z : i8
  %0 = comb.extract %z from 0 : (i8) -> i4
  hw.output %r : i8
}
// -----
// a register with the name of an earlier register
hw.module @T(in %clk : !seq.clock, in %rst : i1, in %en : i1, in %d : i8, out q : i8) {
  %r = seq.compreg %d, %clk : i8
  %1 = seq.compreg %r, %clk {name = "r"} : i8
  hw.output %1 : i8
}
// -----
// a register with the name that a value took before it
hw.module @T(in %clk : !seq.clock, in %rst : i1, in %en : i1, in %d : i8, out q : i8) {
  %0 = comb.add %d, %d {sv.namehint = "r"} : i8
  %r = seq.compreg %0, %clk : i8
  hw.output %r : i8
}
