// V10: array_get of four elements by an index of 3 bits, which a port has
hw.module @T(in %r : !hw.array<4xi8>, in %i : i2, in %j : i3, out o : i8) {
  %0 = hw.array_get %r[%j] : !hw.array<4xi8>, i3
  hw.output %0 : i8
}
// -----
// V10: array_slice of four elements by an index of 3 bits
hw.module @T(in %r : !hw.array<4xi8>, in %i : i2, in %j : i3, out o : i8) {
  %0 = hw.array_slice %r[%j] : (!hw.array<4xi8>) -> !hw.array<2xi8>
  hw.output %1 : i8
}
// -----
// V10: array_slice of five elements of four
hw.module @T(in %r : !hw.array<4xi8>, in %i : i2, in %j : i3, out o : i8) {
  %0 = hw.array_slice %r[%i] : (!hw.array<4xi8>) -> !hw.array<5xi8>
  hw.output %1 : i8
}
// -----
// V10: array_inject of one element by an index of 2 bits
hw.module @T(in %r : !hw.array<1xi8>, in %v : i8, in %i : i2) {
  %0 = hw.array_inject %r[%i], %v : !hw.array<1xi8>, i2
}
// -----
// V10: array_get of four elements by an index of 3 bits
hw.module @T(in %a : !hw.array<4xi8>, in %i : i3) {
  %0 = hw.array_get %a[%i] : !hw.array<4xi8>, i3
}
