// S4: an operation of another dialect
hw.module @T(in %a : i8, out o : i8) {
  %0 = sv.wire : i8
  hw.output %0 : i8
}
// -----
// S4: sv.wire
hw.module @M(in %a : i8) {
%0 = sv.wire : i8
// -----
// S4: an operation in quotes
hw.module @M(in %a : i8) {
%0 = "comb.add"(%a)
// -----
// S4: a location after an operation
hw.module @M(in %a : i8) {
%0 = comb.add %a, %a : i8 loc(unknown)
// -----
// S4: a location in place of an operation
hw.module @M(in %a : i8) {
loc
// -----
// S4: a location in place of a type
hw.module @M(in %a : i8) {
%0 = hw.wire %a : loc
// -----
// S4: an attribute's name in place of an operation
hw.module @M(in %a : i8) {
#m = 5
// -----
// S4: a type's name in place of an operation
hw.module @M(in %a : i8) {
!t = i8
// -----
// S4: an attribute's name in place of a value of an entry
hw.module @M(in %a : i8) {
hw.output {a = #m}
// -----
// S4: a type of another dialect
hw.module @M(in %a : i8) {
%0 = hw.wire %a : !foo.bar
// -----
// S4: an instance with parameters
hw.module @M(in %a : i8) {
hw.instance "u" @N<p: i8 = 1>()
// -----
// S4: hw.module.extern in a module
hw.module @M(in %a : i8) {
hw.module.extern @X()
// -----
// S4: seq.to_clock
hw.module @M(in %a : i8) {
%0 = seq.to_clock %a
// -----
// S4: an operation of another dialect at the top
sv.x
// -----
// S4: a quoted operation at the top
"x"
// -----
// S4: an attribute's name at the top
#m = 1
// -----
// S4: a module with parameters
hw.module @M<x>() {}
// -----
// S4: a location after the only module
hw.module @M() {} loc
// -----
// S4: a port's type of another dialect
hw.module @T(in %a : !foo.bar) {}
// -----
// S4: an operation in quotes with its type
hw.module @T(in %a : i8, out o : i8) {
  %0 = "comb.add"(%a, %a) : (i8, i8) -> i8
}
// -----
// S4: builtin.module in quotes
"builtin.module"() : () -> ()
// -----
// S4: a location after an operation, in a body that ends
hw.module @T(in %a : i8, out o : i8) {
  %0 = comb.add %a, %a : i8 loc(unknown)
}
// -----
// S4: a location after a port
hw.module @T(in %a : i8 loc(unknown)) {}
// -----
// S4: a location after the text's only module
hw.module @T() {} loc(unknown)
// -----
// S4: an attribute's name in place of a value of an entry, in a body that ends
hw.module @T() {
  hw.output {a = #m}
}
// -----
// S4: sv.interface at the top
sv.interface @I
// -----
// S4: sv.wire, in a body that ends
hw.module @T(in %a : i8, out o : i8) {
  %0 = sv.wire : i8
}
// -----
// S4: hw.module.extern at the top
hw.module.extern @X()
// -----
// S4: seq.clock_gate
hw.module @T() {
  %0 = seq.clock_gate %c, %d
}
// -----
// S4: a module with a typed parameter
hw.module @T<p: i8>() {}
// -----
// S4: an instance with parameters, in a body that ends
hw.module @T() {
  hw.instance "u" @N<p: i8 = 1>() -> ()
}
