// V5: a constant 256 of eight bits
hw.module @T(in %a : i8, out o : i8) {
  %0 = hw.constant 256 : i8
  hw.output %0 : i8
}
// -----
// V5: a constant -129 of eight bits
hw.module @T(in %a : i8, out o : i8) {
  %0 = hw.constant -129 : i8
  hw.output %0 : i8
}
// -----
// V5: a constant 2 of one bit
hw.module @T(in %a : i8, out o : i8) {
  %0 = hw.constant 2 : i1
  hw.output %a : i8
}
// -----
// V5: a constant -0x81 of eight bits
hw.module @T(in %a : i8, out o : i8) {
  %0 = hw.constant -0x81 : i8
  hw.output %0 : i8
}
// -----
// V5: a number 256 as an element of eight bits, the first of two
hw.module @T(in %a : i8, out o : i8) {
  %0 = hw.aggregate_constant [256 : i8, 0 : i8] : !hw.array<2xi8>
  hw.output %a : i8
}
// -----
// V5: a constant 256 that stands after the division by it
hw.module @T(in %a : i8, out o : i8) {
  %0 = comb.divu %a, %k : i8
  %k = hw.constant 256 : i8
  hw.output %0 : i8
}
// -----
// V5: a constant 256 of 8 bits
hw.module @K(out c : i8) {
  %x = hw.constant 256 : i8
  hw.output %x : i8
}
// -----
// V5: a constant -129 of eight bits, in a module without ports
hw.module @T() {
  %0 = hw.constant -129 : i8
}
// -----
// V5: a number 256 as an element of eight bits, the second of two
hw.module @T() {
  %0 = hw.aggregate_constant [1 : i8, 256 : i8] : !hw.array<2xi8>
}
