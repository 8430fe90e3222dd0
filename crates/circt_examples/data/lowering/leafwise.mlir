// RUN: circt opt --hw-lower-aggregates
// an aggregate_constant of one element
module {
  hw.module @T(out o : !hw.array<1xi8>) {
    %0 = hw.aggregate_constant [5 : i8] : !hw.array<1xi8>
    hw.output %0 : !hw.array<1xi8>
  }
}
// -----
// an aggregate_constant of two: the first literal is that of the highest index
module {
  hw.module @T(out o : !hw.array<2xi8>) {
    %0 = hw.aggregate_constant [255 : i8, 0 : i8] : !hw.array<2xi8>
    hw.output %0 : !hw.array<2xi8>
  }
}
// -----
// an aggregate_constant of three: equal constants are not shared
module {
  hw.module @T(out o : !hw.array<3xi8>) {
    %0 = hw.aggregate_constant [7 : i8, 6 : i8, 7 : i8] : !hw.array<3xi8>
    hw.output %0 : !hw.array<3xi8>
  }
}
// -----
// an aggregate_constant of five single bits
module {
  hw.module @T(out o : !hw.array<5xi1>) {
    %0 = hw.aggregate_constant [true, false, true, true, false] : !hw.array<5xi1>
    hw.output %0 : !hw.array<5xi1>
  }
}
// -----
// an aggregate_constant of lists in lists
module {
  hw.module @T(out o : !hw.struct<p: i4, q: !hw.array<2x!hw.struct<x: i8, y: i1>>>) {
    %0 = hw.aggregate_constant [1 : i4, [[2 : i8, true], [3 : i8, false]]] : !hw.struct<p: i4, q: !hw.array<2x!hw.struct<x: i8, y: i1>>>
    hw.output %0 : !hw.struct<p: i4, q: !hw.array<2x!hw.struct<x: i8, y: i1>>>
  }
}
// -----
// a mux of arrays of one element
module {
  hw.module @T(in %c : i1, in %x : !hw.array<1xi8>, in %y : !hw.array<1xi8>, out o : !hw.array<1xi8>) {
    %0 = comb.mux %c, %x, %y : !hw.array<1xi8>
    hw.output %0 : !hw.array<1xi8>
  }
}
// -----
// a mux of arrays of three elements
module {
  hw.module @T(in %c : i1, in %x : !hw.array<3xi8>, in %y : !hw.array<3xi8>, out o : !hw.array<3xi8>) {
    %0 = comb.mux %c, %x, %y : !hw.array<3xi8>
    hw.output %0 : !hw.array<3xi8>
  }
}
// -----
// a mux of an array of five elements and itself
module {
  hw.module @T(in %c : i1, in %x : !hw.array<5xi2>, out o : !hw.array<5xi2>) {
    %0 = comb.mux %c, %x, %x : !hw.array<5xi2>
    hw.output %0 : !hw.array<5xi2>
  }
}
// -----
// a mux of structs that are made, with a condition that is taken out
module {
  hw.module @T(in %s : !hw.struct<c: i1, v: i8>, in %a : i8, out o : i8) {
    %0 = hw.struct_extract %1["v"] : !hw.struct<c: i1, v: i8>
    %1 = comb.mux %2, %s, %3 : !hw.struct<c: i1, v: i8>
    %2 = hw.struct_extract %s["c"] : !hw.struct<c: i1, v: i8>
    %3 = hw.struct_create (%2, %a) : !hw.struct<c: i1, v: i8>
    hw.output %0 : i8
  }
}
// -----
// a wire of an array of structs: its leaves have names after its own
module {
  hw.module @T(in %a : !hw.array<2x!hw.struct<x: i8, y: i4>>, out o : !hw.array<2x!hw.struct<x: i8, y: i4>>) {
    %w = hw.wire %a : !hw.array<2x!hw.struct<x: i8, y: i4>>
    hw.output %w : !hw.array<2x!hw.struct<x: i8, y: i4>>
  }
}
// -----
// a wire without a name: its leaves have none
module {
  hw.module @T(in %a : !hw.array<3xi8>, out o : !hw.array<3xi8>) {
    %0 = hw.wire %a : !hw.array<3xi8>
    hw.output %0 : !hw.array<3xi8>
  }
}
// -----
// a wire with a name that is no value's name
module {
  hw.module @T(in %a : !hw.struct<x: i8>, out o : !hw.struct<x: i8>) {
    %0 = hw.wire %a {name = "a b"} : !hw.struct<x: i8>
    hw.output %0 : !hw.struct<x: i8>
  }
}
// -----
// a wire of an integer that a lowered operation gave
module {
  hw.module @T(in %s : !hw.struct<x: i8>, out o : i8) {
    %w = hw.wire %0 {k} : i8
    %0 = hw.struct_extract %s["x"] : !hw.struct<x: i8>
    hw.output %w : i8
  }
}
