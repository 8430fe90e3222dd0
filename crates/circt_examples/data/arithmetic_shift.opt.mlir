// an arithmetic shift by a value, in an xor
module {
  hw.module @T(in %a : i8, in %b : i8, in %c : i8, out o : i8) {
    %0 = comb.shrs %a, %b : i8
    %1 = comb.xor %0, %c : i8
    hw.output %1 : i8
  }
}
