// an extract of all bits is the value
module {
  hw.module @T(in %a : i8, in %b : i1, in %c : i128, out o : i8, out p : i1, out q : i128) {
    hw.output %a, %b, %c : i8, i1, i128
  }
}
// -----
// an extract of all bits of its own register
module {
  hw.module @T(in %clk : !seq.clock, out o : i8) {
    %r = seq.compreg %r, %clk : i8
    hw.output %r : i8
  }
}
// -----
// extracts of all bits but one stay
module {
  hw.module @T(in %a : i8, in %c : i128, out o : i7, out p : i7, out q : i127) {
    %0 = comb.extract %a from 0 : (i8) -> i7
    %1 = comb.extract %a from 1 : (i8) -> i7
    %2 = comb.extract %c from 1 : (i128) -> i127
    hw.output %0, %1, %2 : i7, i7, i127
  }
}
// -----
// an extract of an extract with one use is one extract
module {
  hw.module @T(in %a : i8, in %b : i128, out o : i3, out p : i1) {
    %0 = comb.extract bin %a from 3 {outer} : (i8) -> i3
    %1 = comb.extract %b from 127 : (i128) -> i1
    hw.output %0, %1 : i3, i1
  }
}
// -----
// extracts one after another, one of which stands after its use
module {
  hw.module @T(in %a : i8, in %b : i8, out o : i2, out p : i1, out q : i8) {
    %0 = comb.extract %a from 3 : (i8) -> i2
    %1 = comb.extract %b from 6 : (i8) -> i1
    %2 = comb.sub %a, %b : i8
    hw.output %0, %1, %2 : i2, i1, i8
  }
}
// -----
// an extract of an extract with two uses stays
module {
  hw.module @T(in %a : i8, in %b : i8, out o : i3, out p : i5, out q : i1, out r : i1) {
    %0 = comb.extract %a from 2 : (i8) -> i5
    %1 = comb.extract %0 from 1 : (i5) -> i3
    %2 = comb.extract %b from 2 : (i8) -> i5
    %3 = comb.extract %2 from 1 : (i5) -> i1
    %4 = comb.extract %2 from 3 : (i5) -> i1
    hw.output %1, %0, %3, %4 : i3, i5, i1, i1
  }
}
// -----
// an extract of exactly one operand of a concat, which may have other uses
module {
  hw.module @T(in %a : i8, in %b : i4, in %c : i4, out o : i8, out p : i4, out q : i4, out r : i16) {
    %0 = comb.concat %a, %b, %c : i8, i4, i4
    hw.output %a, %b, %c, %0 : i8, i4, i4, i16
  }
}
// -----
// an extract of one operand of a concat, the first and the last of 128 bits
module {
  hw.module @T(in %a : i1, in %b : i127, out o : i1, out p : i127) {
    hw.output %a, %b : i1, i127
  }
}
// -----
// extracts stay: of two operands of a concat, of a part of one, of parts of two
module {
  hw.module @T(in %a : i8, in %b : i4, in %c : i4, out o : i8, out p : i3, out q : i4) {
    %0 = comb.concat %a, %b, %c : i8, i4, i4
    %1 = comb.extract %0 from 0 : (i16) -> i8
    %2 = comb.extract %0 from 4 : (i16) -> i3
    %3 = comb.extract %0 from 2 : (i16) -> i4
    hw.output %1, %2, %3 : i8, i3, i4
  }
}
// -----
// a concat with one use is taken in by a concat, in its place
module {
  hw.module @T(in %a : i8, in %b : i4, in %c : i1, out o : i13, out p : i17) {
    %0 = comb.concat bin %a, %b, %c {outer} : i8, i4, i1
    %1 = comb.concat %a, %c, %b, %b : i8, i1, i4, i4
    hw.output %0, %1 : i13, i17
  }
}
// -----
// concats one after another, one of which stands after its use
module {
  hw.module @T(in %a : i1, in %b : i1, out o : i128, out p : i8) {
    %0 = comb.replicate %a : (i1) -> i126
    %1 = comb.concat %0, %b, %2 : i126, i1, i1
    %2 = comb.parity %0 : i126
    %3 = comb.replicate %b : (i1) -> i8
    hw.output %1, %3 : i128, i8
  }
}
// -----
// a concat with two uses, by two operations or by one, stays
module {
  hw.module @T(in %a : i8, in %b : i4, out o : i16, out p : i12, out q : i24) {
    %0 = comb.concat %a, %b : i8, i4
    %1 = comb.concat %0, %b : i12, i4
    %2 = comb.concat %b, %a : i4, i8
    %3 = comb.concat %2, %2 : i12, i12
    hw.output %1, %0, %3 : i16, i12, i24
  }
}
// -----
// a concat of one operand, one copy, and a bitcast to the same type are the value
module {
  hw.module @T(in %a : i8, in %b : i1, in %c : i128, out o : i8, out p : i8, out q : i8, out r : i1, out s : i128) {
    hw.output %a, %a, %a, %b, %c : i8, i8, i8, i1, i128
  }
}
// -----
// a bitcast of a struct and of an array to its own type is the value
module {
  hw.module @T(in %s : !hw.struct<x: i4, y: i4>, in %v : !hw.array<2xi4>, out o : !hw.struct<x: i4, y: i4>, out p : !hw.array<2xi4>) {
    hw.output %s, %v : !hw.struct<x: i4, y: i4>, !hw.array<2xi4>
  }
}
// -----
// a bitcast of a constant to its own type is the constant, with its dictionary
module {
  hw.module @T(out o : i8) {
    %c5_i8 = hw.constant 5 {k} : i8
    hw.output %c5_i8 : i8
  }
}
// -----
// these stay: a concat of two, two copies, and bitcasts to types that differ in field names alone
module {
  hw.module @T(in %a : i8, in %s : !hw.struct<x: i4, y: i4>, out o : i16, out p : i16, out q : !hw.struct<x: i4, z: i4>, out r : i8) {
    %0 = comb.concat %a, %a : i8, i8
    %1 = comb.replicate %a : (i8) -> i16
    %2 = hw.bitcast %s : (!hw.struct<x: i4, y: i4>) -> !hw.struct<x: i4, z: i4>
    %3 = hw.bitcast %s : (!hw.struct<x: i4, y: i4>) -> i8
    hw.output %0, %1, %2, %3 : i16, i16, !hw.struct<x: i4, z: i4>, i8
  }
}
// -----
// a field of what was made of fields is the value
module {
  hw.module @T(in %a : i8, in %b : i8, out o : i8, out p : i8) {
    hw.output %a, %b : i8, i8
  }
}
// -----
// a field of what is made of a register that the field feeds
module {
  hw.module @T(in %clk : !seq.clock, in %a : i128, out o : i1, out p : !hw.struct<x: i128, y: i1>) {
    %0 = hw.struct_create (%a, %r) : !hw.struct<x: i128, y: i1>
    %r = seq.compreg %r, %clk : i1
    hw.output %r, %0 : i1, !hw.struct<x: i128, y: i1>
  }
}
// -----
// fields of other structs stay: of an inject, a wire and an explode
module {
  hw.module @T(in %a : i8, in %s : !hw.struct<x: i8, y: i8>, out o : i8, out p : i8, out q : i8) {
    %0 = hw.struct_inject %s["x"], %a : !hw.struct<x: i8, y: i8>
    %1 = hw.struct_extract %0["x"] : !hw.struct<x: i8, y: i8>
    %2 = hw.struct_create (%a, %a) : !hw.struct<x: i8, y: i8>
    %3 = hw.wire %2 : !hw.struct<x: i8, y: i8>
    %4 = hw.struct_extract %3["y"] : !hw.struct<x: i8, y: i8>
    %5:2 = hw.struct_explode %2 : !hw.struct<x: i8, y: i8>
    hw.output %1, %4, %5#0 : i8, i8, i8
  }
}
// -----
// an element of what was made of elements, the first of which has the highest index
module {
  hw.module @T(in %a : i8, in %b : i8, in %c : i8, out o : i8, out p : i8, out q : i8) {
    hw.output %c, %b, %a : i8, i8, i8
  }
}
// -----
// an element of an array of one of 128 bits, and of an array of structs
module {
  hw.module @T(in %a : i128, in %s : !hw.struct<x: i8>, in %t : !hw.struct<x: i8>, out o : i128, out p : !hw.struct<x: i8>) {
    hw.output %a, %s : i128, !hw.struct<x: i8>
  }
}
// -----
// an element at the length and past it stays
module {
  hw.module @T(in %a : i8, in %b : i8, in %c : i8, out o : i8, out p : i8) {
    %c-1_i2 = hw.constant -1 : i2
    %true = hw.constant true
    %0 = hw.array_create %a, %b, %c : i8
    %1 = hw.array_get %0[%c-1_i2] : !hw.array<3xi8>, i2
    %2 = hw.array_create %a : i8
    %3 = hw.array_get %2[%true] : !hw.array<1xi8>, i1
    hw.output %1, %3 : i8, i8
  }
}
// -----
// an element stays at an index that is no constant, and of an inject and a constant
module {
  hw.module @T(in %a : i8, in %b : i8, in %i : i1, out o : i8, out p : i8, out q : i8) {
    %true = hw.constant true
    %0 = hw.array_create %a, %b : i8
    %1 = hw.array_get %0[%i] : !hw.array<2xi8>, i1
    %2 = hw.array_inject %0[%true], %b : !hw.array<2xi8>, i1
    %3 = hw.array_get %2[%true] : !hw.array<2xi8>, i1
    %4 = hw.aggregate_constant [1 : i8, 2 : i8] : !hw.array<2xi8>
    %5 = hw.array_get %4[%true] : !hw.array<2xi8>, i1
    hw.output %1, %3, %5 : i8, i8, i8
  }
}
