// S1: a string with an escape that is none
hw.module @M(in %a : i8) {
hw.output {a = "x\q"}
// -----
// S1: a string without an end
hw.module @M(in %a : i8) {
hw.output {a = "x
// -----
// S1: a % without a name
hw.module @M(in %a : i8) {
hw.output % : i8
// -----
// S1: an ! without a name
hw.module @M(in %a : i8) {
%0 = comb.add %a, ! : i8
// -----
// S1: a question mark after an operation
hw.module @M(in %a : i8) {
%0 = comb.add %a, %a : i8 ?
// -----
// S1: a quoted symbol without an end
hw.module @M(in %a : i8) {
hw.instance "u" @"ab
// -----
// S1: a number with a point
hw.module @M(in %a : i8) {
%0 = hw.constant 1.5 : i8
// -----
// S1: a # with a blank before its number
hw.module @M(in %a : i8) {
%0 = comb.add %a# 1, %a : i8
// -----
// S1: a byte that begins no token

// -----
// S1: a string with an escape that is none, in a body that ends
hw.module @T() {
  hw.output {a = "x\q"}
}
// -----
// S1: a string with a line end
hw.module @T() {
  hw.output {a = "x
"}
}
// -----
// S1: an ! with a blank before its name
hw.module @T(in %a : ! hw.array<2xi8>) {}
// -----
// S1: a # with a blank before its number, in a body that ends
hw.module @T(in %a : i8, out o : i8) {
  hw.output %a# 0 : i8
}
// -----
// S1: a semicolon in place of an operand
hw.module @T(in %a : i8, out o : i8) {
  %0 = comb.add %a, ; : i8
}
// -----
// S1: a block's name
hw.module @T() {
^bb0:
}
// -----
// S1: a number with a point, in a body that ends
hw.module @T() {
  %0 = hw.constant 1.5 : i8
}
// -----
// S1: an instance of a quoted symbol without an end
hw.module @T() {
  hw.instance "u" @"ab() -> ()
}
