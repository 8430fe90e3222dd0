// V8: 129 bits of two operands
hw.module @T(in %w : i128, in %x : i1) {
  %0 = comb.concat %w, %x : i128, i1
}
// -----
// V8: 384 bits of three operands
hw.module @T(in %w : i128) {
  %0 = comb.concat %w, %w, %w : i128, i128, i128
}
// -----
// V8: 256 bits of two operands
hw.module @T(in %a : i128) {
  %0 = comb.concat %a, %a : i128, i128
}
