// RUN: circt opt --hw-lower-aggregates
// array_get of one element: its test, and else zero
module {
  hw.module @T(in %a : !hw.array<1xi8>, in %i : i1, out o : i8) {
    %0 = hw.array_get %a[%i] : !hw.array<1xi8>, i1
    hw.output %0 : i8
  }
}
// -----
// array_get of two elements: the first test is the outermost, and the last choice is zero
module {
  hw.module @T(in %a : !hw.array<2xi8>, in %i : i1, out o : i8) {
    %0 = hw.array_get %a[%i] : !hw.array<2xi8>, i1
    hw.output %0 : i8
  }
}
// -----
// array_get of three elements of the index's type: the zero has the name of its first constant and a number
module {
  hw.module @T(in %a : !hw.array<3xi2>, in %i : i2, out o : i2) {
    %0 = hw.array_get %a[%i] : !hw.array<3xi2>, i2
    hw.output %0 : i2
  }
}
// -----
// array_get of five single bits
module {
  hw.module @T(in %a : !hw.array<5xi1>, in %i : i3, out o : i1) {
    %0 = hw.array_get %a[%i] : !hw.array<5xi1>, i3
    hw.output %0 : i1
  }
}
// -----
// array_get of elements of two leaves: they share the tests, and each has a zero of its own
module {
  hw.module @T(in %a : !hw.array<2x!hw.struct<x: i8, y: i4>>, in %i : i1, out o : !hw.struct<x: i8, y: i4>) {
    %0 = hw.array_get %a[%i] : !hw.array<2x!hw.struct<x: i8, y: i4>>, i1
    hw.output %0 : !hw.struct<x: i8, y: i4>
  }
}
// -----
// array_get of an element that is an array: its highest leaf comes first
module {
  hw.module @T(in %a : !hw.array<1x!hw.array<2xi8>>, in %i : i1, out o : !hw.array<2xi8>) {
    %0 = hw.array_get %a[%i] : !hw.array<1x!hw.array<2xi8>>, i1
    hw.output %0 : !hw.array<2xi8>
  }
}
// -----
// array_inject of one element: one mux with its test
module {
  hw.module @T(in %a : !hw.array<1xi8>, in %i : i1, in %v : i8, out o : !hw.array<1xi8>) {
    %0 = hw.array_inject %a[%i], %v : !hw.array<1xi8>, i1
    hw.output %0 : !hw.array<1xi8>
  }
}
// -----
// array_inject of two elements: the highest comes first
module {
  hw.module @T(in %a : !hw.array<2xi8>, in %i : i1, in %v : i8, out o : !hw.array<2xi8>) {
    %0 = hw.array_inject %a[%i], %v : !hw.array<2xi8>, i1
    hw.output %0 : !hw.array<2xi8>
  }
}
// -----
// array_inject of three elements
module {
  hw.module @T(in %a : !hw.array<3xi8>, in %i : i2, in %v : i8, out o : !hw.array<3xi8>) {
    %0 = hw.array_inject %a[%i], %v : !hw.array<3xi8>, i2
    hw.output %0 : !hw.array<3xi8>
  }
}
// -----
// array_inject of five elements of 2 bits
module {
  hw.module @T(in %a : !hw.array<5xi2>, in %i : i3, in %v : i2, out o : !hw.array<5xi2>) {
    %0 = hw.array_inject %a[%i], %v : !hw.array<5xi2>, i3
    hw.output %0 : !hw.array<5xi2>
  }
}
// -----
// array_inject of elements of two leaves, which share the test of their element
module {
  hw.module @T(in %a : !hw.array<2x!hw.struct<x: i8, y: i4>>, in %i : i1, in %v : !hw.struct<x: i8, y: i4>, out o : !hw.array<2x!hw.struct<x: i8, y: i4>>) {
    %0 = hw.array_inject %a[%i], %v : !hw.array<2x!hw.struct<x: i8, y: i4>>, i1
    hw.output %0 : !hw.array<2x!hw.struct<x: i8, y: i4>>
  }
}
