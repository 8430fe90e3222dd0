// S3: an unknown operation
hw.module @T(in %a : i8, out o : i8) {
  %0 = comb.nand %a, %a : i8
  hw.output %0 : i8
}
// -----
// S3: comb.nand
hw.module @M(in %a : i8) {
%0 = comb.nand %a, %a : i8
// -----
// S3: a word without a dialect in a module
hw.module @M(in %a : i8) {
foo
// -----
// S3: hw.foo
hw.module @M(in %a : i8) {
hw.foo
// -----
// S3: a dialect without an operation
hw.module @M(in %a : i8) {
hw. x
// -----
// S3: hw.param.value
hw.module @M(in %a : i8) {
hw.param.value
// -----
// S3: seq.const_clock
hw.module @M(in %a : i8) {
seq.const_clock
// -----
// S3: builtin.foo
hw.module @M(in %a : i8) {
builtin.foo
// -----
// S3: a word without a dialect at the top
foo
// -----
// S3: hw.typedecl at the top
hw.typedecl @t
// -----
// S3: comb.nand, in a body that ends
hw.module @T(in %a : i8, out o : i8) {
  %0 = comb.nand %a, %a : i8
}
// -----
// S3: seq.clock_inv
hw.module @T() {
  %0 = seq.clock_inv %c
}
