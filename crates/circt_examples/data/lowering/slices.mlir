// RUN: circt opt --hw-lower-aggregates
// array_slice of one element of one
module {
  hw.module @T(in %a : !hw.array<1xi8>, in %i : i1, out o : !hw.array<1xi8>) {
    %0 = hw.array_slice %a[%i] : (!hw.array<1xi8>) -> !hw.array<1xi8>
    hw.output %0 : !hw.array<1xi8>
  }
}
// -----
// array_slice of one element of two
module {
  hw.module @T(in %a : !hw.array<2xi8>, in %i : i1, out o : !hw.array<1xi8>) {
    %0 = hw.array_slice %a[%i] : (!hw.array<2xi8>) -> !hw.array<1xi8>
    hw.output %0 : !hw.array<1xi8>
  }
}
// -----
// array_slice of the whole array of two: the last test decides element 0 alone
module {
  hw.module @T(in %a : !hw.array<2xi8>, in %i : i1, out o : !hw.array<2xi8>) {
    %0 = hw.array_slice %a[%i] : (!hw.array<2xi8>) -> !hw.array<2xi8>
    hw.output %0 : !hw.array<2xi8>
  }
}
// -----
// array_slice of two elements of three
module {
  hw.module @T(in %a : !hw.array<3xi8>, in %i : i2, out o : !hw.array<2xi8>) {
    %0 = hw.array_slice %a[%i] : (!hw.array<3xi8>) -> !hw.array<2xi8>
    hw.output %0 : !hw.array<2xi8>
  }
}
// -----
// array_slice of three elements of five
module {
  hw.module @T(in %a : !hw.array<5xi4>, in %i : i3, out o : !hw.array<3xi4>) {
    %0 = hw.array_slice %a[%i] : (!hw.array<5xi4>) -> !hw.array<3xi4>
    hw.output %0 : !hw.array<3xi4>
  }
}
// -----
// array_slice of elements of two leaves
module {
  hw.module @T(in %a : !hw.array<2x!hw.struct<x: i8, y: i4>>, in %i : i1, out o : !hw.array<2x!hw.struct<x: i8, y: i4>>) {
    %0 = hw.array_slice %a[%i] : (!hw.array<2x!hw.struct<x: i8, y: i4>>) -> !hw.array<2x!hw.struct<x: i8, y: i4>>
    hw.output %0 : !hw.array<2x!hw.struct<x: i8, y: i4>>
  }
}
