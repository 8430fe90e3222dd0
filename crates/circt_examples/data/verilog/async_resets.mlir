// one register after another, by two resets
hw.module @T(in %clk : !seq.clock, in %rst : i1, in %s : i1, in %d : i8, out q : i8) {
  %z = hw.constant 9 : i8
  %y = hw.constant -1 : i8
  %a = seq.firreg %d clock %clk reset async %rst, %z : i8
  %b = seq.firreg %a clock %clk reset async %s, %y : i8
  hw.output %b : i8
}
// -----
// the value is a literal, though the constant has a wire
hw.module @T(in %clk : !seq.clock, in %rst : i1, in %d : i8, out q : i8, out p : i4) {
  %z = hw.constant 5 : i8
  %r = seq.firreg %d clock %clk reset async %rst, %z : i8
  %0 = comb.extract %z from 0 : (i8) -> i4
  hw.output %r, %0 : i8, i4
}
// -----
// the value is a constant that stands later
hw.module @T(in %clk : !seq.clock, in %rst : i1, in %d : i8, out q : i8) {
  %r = seq.firreg %d clock %clk reset async %rst, %z : i8
  %z = hw.constant 9 : i8
  hw.output %r : i8
}
// -----
// a register of one bit, whose data is its reset
hw.module @T(in %clk : !seq.clock, in %rst : i1, out q : i1) {
  %t = hw.constant true
  %r = seq.firreg %rst clock %clk reset async %rst, %t : i1
  hw.output %r : i1
}
