// slices of an array and their join, which nobody uses
hw.module @T(in %a : !hw.array<4xi4>, in %i : i2, out o : i2) {
  %0 = hw.array_concat %1, %2 : !hw.array<2xi4>, !hw.array<2xi4>
  %1 = hw.array_slice %a[%i] : (!hw.array<4xi4>) -> !hw.array<2xi4>
  %2 = hw.array_slice %a[%i] : (!hw.array<4xi4>) -> !hw.array<2xi4>
  hw.output %i : i2
}
// -----
// an array that nobody uses, and its element, which has a name
hw.module @T(in %a : !hw.array<2xi4>, in %i : i1, in %x : i4, out o : i4) {
  %0 = hw.array_inject %a[%i], %1 : !hw.array<2xi4>, i1
  %1 = comb.add %x, %x {sv.namehint = "twice"} : i4
  hw.output %x : i4
}
