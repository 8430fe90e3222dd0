// asynchronous resets, with a dictionary and with a name that is no value's name
hw.module @T(in %clk : !seq.clock, in %rst : i1, in %d : i8, out q : i8) {
  %0 = hw.constant 9 : i8
  %1 = seq.firreg %d clock %clk reset async %rst, %0 {sv.namehint = "s", k} : i8
  %2 = seq.firreg %1 clock %clk reset async %rst, %0 {name = "x y"} : i8
  hw.output %2 : i8
}
// -----
// the reset's constant is of an array and stands later
hw.module @T(in %clk : !seq.clock, in %rst : i1, in %d : !hw.array<2xi8>) {
  %r = seq.firreg %d clock %clk reset async %rst, %k : !hw.array<2xi8>
  %k = hw.aggregate_constant [1 : i8, 2 : i8] : !hw.array<2xi8>
}
// -----
// the reset goes through two modules
hw.module private @Reg(in %clk : !seq.clock, in %rst : i1, in %d : i8, out q : i8) {
  %z = hw.constant 9 : i8
  %r = seq.firreg %d clock %clk reset async %rst, %z : i8
  hw.output %r : i8
}
hw.module private @Mid(in %clk : !seq.clock, in %x : i1, in %d : i8, out q : i8) {
  %u.q = hw.instance "u" @Reg(clk: %clk: !seq.clock, rst: %x: i1, d: %d: i8) -> (q: i8)
  hw.output %u.q : i8
}
hw.module @Top(in %clk : !seq.clock, in %a : i1, in %d : i8, out q : i8) {
  %m.q = hw.instance "m" @Mid(clk: %clk: !seq.clock, x: %a: i1, d: %d: i8) -> (q: i8)
  hw.output %m.q : i8
}
