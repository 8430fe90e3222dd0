// an arithmetic shift in a mux
hw.module @T(in %a : i8, in %b : i8, in %c : i8, in %s : i1, out o : i8) {
  %0 = comb.shrs %a, %b : i8
  %1 = comb.mux %s, %0, %c : i8
  hw.output %1 : i8
}
