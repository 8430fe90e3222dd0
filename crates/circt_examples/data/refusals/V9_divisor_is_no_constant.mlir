// V9: a divisor that is 0
hw.module @T(in %a : i8, out o : i8) {
  %0 = hw.constant 0 : i8
  %1 = comb.divu %a, %0 : i8
  hw.output %1 : i8
}
// -----
// V9: comb.divu by a constant 0
hw.module @T(in %a : i8, out o : i8) {
  %0 = hw.constant 0 : i8
  %1 = comb.divu %a, %0 : i8
  hw.output %a : i8
}
// -----
// V9: comb.modu by a port
hw.module @T(in %a : i8, out o : i8) {
  %1 = comb.modu %a, %a : i8
  hw.output %a : i8
}
// -----
// V9: comb.divs by a wire of a constant
hw.module @T(in %a : i8, out o : i8) {
  %k = hw.constant 3 : i8
  %w = hw.wire %k : i8
  %1 = comb.divs %a, %w : i8
  hw.output %a : i8
}
// -----
// V9: comb.mods by a sum of constants
hw.module @T(in %a : i8, out o : i8) {
  %k = hw.constant 3 : i8
  %w = comb.add %k, %k : i8
  %1 = comb.mods %a, %w : i8
  hw.output %a : i8
}
// -----
// V9: comb.divu by a constant 0 that stands after
hw.module @T(in %a : i8, in %b : i8, out o : i8) {
  %0 = comb.divu %a, %1 : i8
  %1 = hw.constant 0 : i8
  hw.output %0 : i8
}
// -----
// V9: comb.divu by a port
hw.module @T(in %a : i8, in %b : i8, out o : i8) {
  %0 = comb.divu %a, %b : i8
  hw.output %0 : i8
}
