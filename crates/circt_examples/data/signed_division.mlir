// a signed quotient by -3, shifted by a value
hw.module @T(in %a : i8, in %b : i8, out o : i8) {
  %k = hw.constant -3 : i8
  %0 = comb.divs %a, %k : i8
  %1 = comb.shru %0, %b : i8
  hw.output %1 : i8
}
