// RUN: circt opt --hw-lower-aggregates
// 16 bits to an array of two: the first leaf has the highest bits
module {
  hw.module @T(in %x : i16, out o : !hw.array<2xi8>) {
    %0 = hw.bitcast %x : (i16) -> !hw.array<2xi8>
    hw.output %0 : !hw.array<2xi8>
  }
}
// -----
// 5 bits to an array of five single bits
module {
  hw.module @T(in %x : i5, out o : !hw.array<5xi1>) {
    %0 = hw.bitcast %x : (i5) -> !hw.array<5xi1>
    hw.output %0 : !hw.array<5xi1>
  }
}
// -----
// 16 bits to a struct with an array in it: the last field is the least significant
module {
  hw.module @T(in %x : i16, out o : !hw.struct<x: i3, y: !hw.array<1xi5>, z: i8>) {
    %0 = hw.bitcast %x : (i16) -> !hw.struct<x: i3, y: !hw.array<1xi5>, z: i8>
    hw.output %0 : !hw.struct<x: i3, y: !hw.array<1xi5>, z: i8>
  }
}
// -----
// 8 bits to an array of one: one leaf of the whole width is an extract too
module {
  hw.module @T(in %x : i8, out o : !hw.array<1xi8>) {
    %0 = hw.bitcast %x : (i8) -> !hw.array<1xi8>
    hw.output %0 : !hw.array<1xi8>
  }
}
// -----
// a struct of one field to 8 bits
module {
  hw.module @T(in %s : !hw.struct<x: i8>, out o : i8) {
    %0 = hw.bitcast %s : (!hw.struct<x: i8>) -> i8
    hw.output %0 : i8
  }
}
// -----
// a struct of three fields to 16 bits
module {
  hw.module @T(in %s : !hw.struct<x: i3, y: i5, z: i8>, out o : i16) {
    %0 = hw.bitcast %s : (!hw.struct<x: i3, y: i5, z: i8>) -> i16
    hw.output %0 : i16
  }
}
// -----
// an array of three single bits to 3 bits
module {
  hw.module @T(in %a : !hw.array<3xi1>, out o : i3) {
    %0 = hw.bitcast %a : (!hw.array<3xi1>) -> i3
    hw.output %0 : i3
  }
}
// -----
// an array of two to a struct of the same leaves
module {
  hw.module @T(in %a : !hw.array<2xi8>, out o : !hw.struct<p: i8, q: i8>) {
    %0 = hw.bitcast %a : (!hw.array<2xi8>) -> !hw.struct<p: i8, q: i8>
    hw.output %0 : !hw.struct<p: i8, q: i8>
  }
}
// -----
// an array to its own type
module {
  hw.module @T(in %a : !hw.array<1xi8>, out o : !hw.array<1xi8>) {
    %0 = hw.bitcast %a : (!hw.array<1xi8>) -> !hw.array<1xi8>
    hw.output %0 : !hw.array<1xi8>
  }
}
// -----
// three leaves of 8 bits to two of 12, without a common boundary
module {
  hw.module @T(in %a : !hw.array<3xi8>, out o : !hw.array<2xi12>) {
    %0 = hw.bitcast %a : (!hw.array<3xi8>) -> !hw.array<2xi12>
    hw.output %0 : !hw.array<2xi12>
  }
}
// -----
// two leaves of 12 bits to three of 8: the middle one is of both
module {
  hw.module @T(in %a : !hw.array<2xi12>, out o : !hw.array<3xi8>) {
    %0 = hw.bitcast %a : (!hw.array<2xi12>) -> !hw.array<3xi8>
    hw.output %0 : !hw.array<3xi8>
  }
}
// -----
// a struct of 3, 5 and 8 bits to one of 7 and 9
module {
  hw.module @T(in %s : !hw.struct<x: i3, y: i5, z: i8>, out o : !hw.struct<p: i7, q: i9>) {
    %0 = hw.bitcast %s : (!hw.struct<x: i3, y: i5, z: i8>) -> !hw.struct<p: i7, q: i9>
    hw.output %0 : !hw.struct<p: i7, q: i9>
  }
}
// -----
// 256 bits, wider than an integer: a leaf in the middle of a leaf
module {
  hw.module @T(in %a : !hw.array<2xi128>, out o : !hw.struct<x: i100, y: i64, z: i92>) {
    %0 = hw.bitcast %a : (!hw.array<2xi128>) -> !hw.struct<x: i100, y: i64, z: i92>
    hw.output %0 : !hw.struct<x: i100, y: i64, z: i92>
  }
}
