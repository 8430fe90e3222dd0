// S5: a constant of 2^128
hw.module @M(in %a : i8) {
%0 = hw.constant 340282366920938463463374607431768211456 : i8
// -----
// S5: a width of 2^32
hw.module @M(in %a : i8) {
%0 = hw.wire %a : i4294967296
// -----
// S5: a width of eleven digits in an array
hw.module @M(in %a : i8) {
%0 = hw.wire %a : !hw.array<3xi99999999999>
// -----
// S5: a negative number below -2^63 in a dictionary
hw.module @M(in %a : i8) {
hw.output {a = -9223372036854775809}
// -----
// S5: a number of 2^64 in a dictionary
hw.module @M(in %a : i8) {
hw.output {a = 18446744073709551616}
// -----
// S5: an extract from 2^32
hw.module @M(in %a : i8) {
%0 = comb.extract %a from 4294967296 : (i8) -> i1
// -----
// S5: 2^32 results
hw.module @M(in %a : i8) {
%x:4294967296 = comb.add %a, %a : i8
// -----
// S5: result number 2^32
hw.module @M(in %a : i8) {
hw.output %a#4294967296 : i8
// -----
// S5: a negative number below -2^63 in a dictionary, in a body that ends
hw.module @T() {
  hw.output {a = -9223372036854775809}
}
// -----
// S5: a number of 2^64 in a dictionary, in a body that ends
hw.module @T() {
  hw.output {a = 18446744073709551616}
}
// -----
// S5: a constant of 2^128, in a body that ends
hw.module @T() {
  %0 = hw.constant 340282366920938463463374607431768211456 : i8
}
// -----
// S5: a port's width of 2^32
hw.module @T(in %a : i4294967296) {}
// -----
// S5: an extract from 2^32, in a body that ends
hw.module @T(in %a : i8, out o : i8) {
  %0 = comb.extract %a from 4294967296 : (i8) -> i1
}
// -----
// S5: 2^32 results, in a body that ends
hw.module @T(in %a : i8, out o : i8) {
  %x:4294967296 = comb.add %a, %a : i8
}
