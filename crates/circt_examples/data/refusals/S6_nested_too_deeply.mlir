// S6: a port of 33 types in one another
hw.module @T(in %a : !hw.array<1x!hw.array<1x!hw.array<1x!hw.array<1x!hw.array<1x!hw.array<1x!hw.array<1x!hw.array<1x!hw.array<1x!hw.array<1x!hw.array<1x!hw.array<1x!hw.array<1x!hw.array<1x!hw.array<1x!hw.array<1x!hw.array<1x!hw.array<1x!hw.array<1x!hw.array<1x!hw.array<1x!hw.array<1x!hw.array<1x!hw.array<1x!hw.array<1x!hw.array<1x!hw.array<1x!hw.array<1x!hw.array<1x!hw.array<1x!hw.array<1x!hw.array<1x!hw.array<1xi8>>>>>>>>>>>>>>>>>>>>>>>>>>>>>>>>>) {}
// -----
// S6: arrays in arrays, 33 types
hw.module @M(in %a : i8) {
%0 = hw.wire %a : !hw.array<1x!hw.array<1x!hw.array<1x!hw.array<1x!hw.array<1x!hw.array<1x!hw.array<1x!hw.array<1x!hw.array<1x!hw.array<1x!hw.array<1x!hw.array<1x!hw.array<1x!hw.array<1x!hw.array<1x!hw.array<1x!hw.array<1x!hw.array<1x!hw.array<1x!hw.array<1x!hw.array<1x!hw.array<1x!hw.array<1x!hw.array<1x!hw.array<1x!hw.array<1x!hw.array<1x!hw.array<1x!hw.array<1x!hw.array<1x!hw.array<1x!hw.array<1x!hw.array<1x
// -----
// S6: lists in a dictionary, 33 of them
hw.module @M(in %a : i8) {
hw.output {a = [[[[[[[[[[[[[[[[[[[[[[[[[[[[[[[[[
// -----
// S6: lists in an aggregate_constant, 33 of them
hw.module @M(in %a : i8) {
%0 = hw.aggregate_constant [[[[[[[[[[[[[[[[[[[[[[[[[[[[[[[[[
// -----
// S6: a list in 31 lists and a type in a dictionary
hw.module @M(in %a : i8) {
hw.output {a = [[[[[[[[[[[[[[[[[[[[[[[[[[[[[[[[5 : !hw.array<1xi8>
// -----
// S6: lists in a dictionary, 33 of them, in a body that ends
hw.module @T() {
  hw.output {a = [[[[[[[[[[[[[[[[[[[[[[[[[[[[[[[[[]]]]]]]]]]]]]]]]]]]]]]]]]]]]]]]]]}
}
// -----
// S6: arrays in arrays over several lines, 33 types
hw.module @T(in %a :
!hw.array<1x!hw.array<1x!hw.array<1x!hw.array<1x!hw.array<1x!hw.array<1x!hw.array<1x!hw.array<1x
!hw.array<1x!hw.array<1x!hw.array<1x!hw.array<1x!hw.array<1x!hw.array<1x!hw.array<1x!hw.array<1x
!hw.array<1x!hw.array<1x!hw.array<1x!hw.array<1x!hw.array<1x!hw.array<1x!hw.array<1x!hw.array<1x
!hw.array<1x!hw.array<1x!hw.array<1x!hw.array<1x!hw.array<1x!hw.array<1x!hw.array<1x!hw.array<1x
!hw.array<1xi8>>>>>>>>>>>>>>>>>>>>>>>>>>>>>>>>>) {}
