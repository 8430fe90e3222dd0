// RUN: circt opt --hw-lower-aggregates
// array_create of one element
module {
  hw.module @T(in %a : i8, out o : !hw.array<1xi8>) {
    %0 = hw.array_create %a : i8
    hw.output %0 : !hw.array<1xi8>
  }
}
// -----
// array_create of two elements: the first operand has the highest index
module {
  hw.module @T(in %a : i8, in %b : i8, out o : !hw.array<2xi8>) {
    %0 = hw.array_create %a, %b : i8
    hw.output %0 : !hw.array<2xi8>
  }
}
// -----
// array_create of three structs
module {
  hw.module @T(in %a : !hw.struct<x: i8, y: i4>, in %b : !hw.struct<x: i8, y: i4>, out o : !hw.array<3x!hw.struct<x: i8, y: i4>>) {
    %0 = hw.array_create %a, %b, %a : !hw.struct<x: i8, y: i4>
    hw.output %0 : !hw.array<3x!hw.struct<x: i8, y: i4>>
  }
}
// -----
// array_concat of arrays of two, one and three elements
module {
  hw.module @T(in %a : !hw.array<2xi8>, in %b : !hw.array<1xi8>, in %c : !hw.array<3xi8>, out o : !hw.array<6xi8>) {
    %0 = hw.array_concat %a, %b, %c : !hw.array<2xi8>, !hw.array<1xi8>, !hw.array<3xi8>
    hw.output %0 : !hw.array<6xi8>
  }
}
// -----
// array_concat of one array, and array_create of five elements
module {
  hw.module @T(in %a : i8, in %b : i8, out o : !hw.array<5xi8>, out p : !hw.array<5xi8>) {
    %0 = hw.array_create %b, %a, %a, %a, %b : i8
    %1 = hw.array_concat %0 : !hw.array<5xi8>
    hw.output %1, %0 : !hw.array<5xi8>, !hw.array<5xi8>
  }
}
// -----
// struct_create: the first field is the first leaf
module {
  hw.module @T(in %a : i8, in %b : i4, out o : !hw.struct<x: i8, y: i4>) {
    %0 = hw.struct_create (%a, %b) : !hw.struct<x: i8, y: i4>
    hw.output %0 : !hw.struct<x: i8, y: i4>
  }
}
// -----
// struct_extract of both fields
module {
  hw.module @T(in %s : !hw.struct<x: i8, y: i8>, out o : i8) {
    %0 = hw.struct_extract %s["y"] : !hw.struct<x: i8, y: i8>
    %1 = hw.struct_extract %s["x"] : !hw.struct<x: i8, y: i8>
    %2 = comb.sub %0, %1 : i8
    hw.output %2 : i8
  }
}
// -----
// struct_inject of the middle field of three
module {
  hw.module @T(in %s : !hw.struct<x: i8, y: i4, z: i8>, in %v : i4, out o : !hw.struct<x: i8, y: i4, z: i8>) {
    %0 = hw.struct_inject %s["y"], %v : !hw.struct<x: i8, y: i4, z: i8>
    hw.output %0 : !hw.struct<x: i8, y: i4, z: i8>
  }
}
// -----
// struct_inject and struct_extract of a field of structs in an array
module {
  hw.module @T(in %s : !hw.struct<p: i4, q: !hw.array<2x!hw.struct<x: i8, y: i1>>>, in %v : !hw.array<2x!hw.struct<x: i8, y: i1>>, out o : !hw.struct<p: i4, q: !hw.array<2x!hw.struct<x: i8, y: i1>>>, out e : !hw.array<2x!hw.struct<x: i8, y: i1>>) {
    %0 = hw.struct_inject %s["q"], %v : !hw.struct<p: i4, q: !hw.array<2x!hw.struct<x: i8, y: i1>>>
    %1 = hw.struct_extract %s["q"] : !hw.struct<p: i4, q: !hw.array<2x!hw.struct<x: i8, y: i1>>>
    hw.output %0, %1 : !hw.struct<p: i4, q: !hw.array<2x!hw.struct<x: i8, y: i1>>>, !hw.array<2x!hw.struct<x: i8, y: i1>>
  }
}
// -----
// several results, one of an aggregate type, above the operation that gives them
module {
  hw.module @T(in %s : !hw.struct<x: !hw.array<2xi8>, y: i8>, in %a : i8, out o : i8, out p : !hw.array<3xi8>) {
    %0 = hw.array_concat %3#0, %1 : !hw.array<2xi8>, !hw.array<1xi8>
    %1 = hw.array_create %2 : i8
    %2 = comb.add %3#1, %a : i8
    %3:2 = hw.struct_explode %s : !hw.struct<x: !hw.array<2xi8>, y: i8>
    hw.output %2, %0 : i8, !hw.array<3xi8>
  }
}
// -----
// what nothing uses leaves nothing
module {
  hw.module @T(in %s : !hw.struct<x: i8, y: i8>, in %a : i8) {
    %0 = hw.struct_create (%a, %a) : !hw.struct<x: i8, y: i8>
    %1:2 = hw.struct_explode %s : !hw.struct<x: i8, y: i8>
    %2 = hw.struct_inject %0["x"], %1#1 : !hw.struct<x: i8, y: i8>
    %3 = hw.array_create %2, %s : !hw.struct<x: i8, y: i8>
    hw.output
  }
}
// -----
// a chain of struct_inject, each below the one whose result it takes
module {
  hw.module @T(in %s : !hw.struct<x: i8, y: i8>, in %v : i8, out o : i8, out p : !hw.struct<x: i8, y: i8>) {
    %0 = hw.struct_inject %s["x"], %v : !hw.struct<x: i8, y: i8>
    %1 = hw.struct_inject %0["x"], %v : !hw.struct<x: i8, y: i8>
    %2 = hw.struct_inject %1["x"], %v : !hw.struct<x: i8, y: i8>
    %3 = hw.struct_inject %2["x"], %v : !hw.struct<x: i8, y: i8>
    %4 = hw.struct_extract %3["y"] : !hw.struct<x: i8, y: i8>
    %5 = hw.struct_extract %1["x"] : !hw.struct<x: i8, y: i8>
    %6 = comb.sub %4, %5 : i8
    hw.output %6, %3 : i8, !hw.struct<x: i8, y: i8>
  }
}
// -----
// a chain of struct_inject, each above the one whose result it takes
module {
  hw.module @T(in %s : !hw.struct<x: i8, y: i8>, in %v : i8, out o : i8, out p : !hw.struct<x: i8, y: i8>) {
    %0 = comb.sub %2, %1 : i8
    %1 = hw.struct_extract %5["x"] : !hw.struct<x: i8, y: i8>
    %2 = hw.struct_extract %3["y"] : !hw.struct<x: i8, y: i8>
    %3 = hw.struct_inject %4["x"], %v : !hw.struct<x: i8, y: i8>
    %4 = hw.struct_inject %5["x"], %v : !hw.struct<x: i8, y: i8>
    %5 = hw.struct_inject %6["x"], %v : !hw.struct<x: i8, y: i8>
    %6 = hw.struct_inject %s["x"], %v : !hw.struct<x: i8, y: i8>
    hw.output %0, %3 : i8, !hw.struct<x: i8, y: i8>
  }
}
// -----
// struct_inject in no order: what is taken in the end stands between them
module {
  hw.module @T(in %a : i8, in %b : i8, out o : !hw.struct<x: i8, y: i8>, out q : !hw.array<2x!hw.struct<x: i8, y: i8>>) {
    %0 = hw.array_create %5, %1 : !hw.struct<x: i8, y: i8>
    %1 = hw.struct_inject %3["x"], %4 : !hw.struct<x: i8, y: i8>
    %2 = hw.struct_extract %3["y"] : !hw.struct<x: i8, y: i8>
    %3 = hw.struct_inject %6["y"], %b : !hw.struct<x: i8, y: i8>
    %4 = comb.sub %2, %a : i8
    %5 = hw.struct_inject %1["y"], %2 : !hw.struct<x: i8, y: i8>
    %6 = hw.struct_create (%a, %a) : !hw.struct<x: i8, y: i8>
    hw.output %5, %0 : !hw.struct<x: i8, y: i8>, !hw.array<2x!hw.struct<x: i8, y: i8>>
  }
}
