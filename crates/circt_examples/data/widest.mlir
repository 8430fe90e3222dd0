// a shift by 200 of 128 bits
hw.module @T(in %a : i128, out c : i128) {
  %k = hw.constant 200 : i128
  %0 = comb.shl %a, %k : i128
  hw.output %0 : i128
}
