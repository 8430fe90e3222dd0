// an element of an array of three, by an index of 2 bits
hw.module @Pick(in %a : !hw.array<3xi8>, in %i : i2, out c : i8) {
  %0 = hw.array_get %a[%i] : !hw.array<3xi8>, i2
  hw.output %0 : i8
}
