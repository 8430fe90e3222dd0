// each operation on integers, some with `bin`
module {
  hw.module @I(in %a : i8, in %b : i8, in %c : i1, out o : i8) {
    %c-3_i8 = hw.constant -3 : i8
    %0 = comb.mul %a, %b, %a : i8
    %1 = comb.sub bin %0, %b : i8
    %2 = comb.divu %1, %c-3_i8 : i8
    %3 = comb.divs %1, %c-3_i8 : i8
    %4 = comb.modu bin %1, %c-3_i8 : i8
    %5 = comb.mods %1, %c-3_i8 : i8
    %6 = comb.shl %2, %3 : i8
    %7 = comb.shru %4, %5 : i8
    %8 = comb.shrs %6, %7 : i8
    %9 = comb.icmp bin slt %8, %a : i8
    %10 = comb.icmp wne %8, %a : i8
    %11 = comb.parity %8 : i8
    %12 = comb.extract %8 from 7 : (i8) -> i1
    %13 = comb.replicate %12 : (i1) -> i4
    %14 = comb.concat %13, %13 : i4, i4
    %15 = comb.mux %c, %14, %b : i8
    %16 = comb.or %15 : i8
    %w = hw.wire %16 : i8
    hw.output %w : i8
  }
}
// -----
// each operation on arrays and structs, with true and false in an aggregate_constant
module {
  hw.module @A(in %r : !hw.array<3xi8>, in %i : i2, in %v : i8, in %s : !hw.struct<x: i8, y: i4>) {
    %0 = hw.array_create %v, %v : i8
    %1 = hw.array_concat %0, %r : !hw.array<2xi8>, !hw.array<3xi8>
    %2 = hw.array_slice %r[%i] : (!hw.array<3xi8>) -> !hw.array<2xi8>
    %3 = hw.array_inject %r[%i], %v : !hw.array<3xi8>, i2
    %4 = hw.array_get %3[%i] : !hw.array<3xi8>, i2
    %5 = hw.struct_inject %s["x"], %4 : !hw.struct<x: i8, y: i4>
    %6 = hw.struct_create (%v, %7) : !hw.struct<x: i8, y: i4>
    %7 = hw.struct_extract %5["y"] : !hw.struct<x: i8, y: i4>
    %8 = hw.aggregate_constant [[1 : i8, -1 : i8], [true, false]] : !hw.struct<p: !hw.array<2xi8>, q: !hw.array<2xi1>>
    hw.output
  }
}
// -----
// each operation on arrays and structs, with 255 for -1 and numbers of type i1
module {
  hw.module @A(in %r : !hw.array<3xi8>, in %i : i2, in %v : i8, in %s : !hw.struct<x: i8, y: i4>) {
    %0 = hw.array_create %v, %v : i8
    %1 = hw.array_concat %0, %r : !hw.array<2xi8>, !hw.array<3xi8>
    %2 = hw.array_slice %r[%i] : (!hw.array<3xi8>) -> !hw.array<2xi8>
    %3 = hw.array_inject %r[%i], %v : !hw.array<3xi8>, i2
    %4 = hw.array_get %3[%i] : !hw.array<3xi8>, i2
    %5 = hw.struct_inject %s["x"], %4 : !hw.struct<x: i8, y: i4>
    %6 = hw.struct_create (%v, %7) : !hw.struct<x: i8, y: i4>
    %7 = hw.struct_extract %5["y"] : !hw.struct<x: i8, y: i4>
    %8 = hw.aggregate_constant [[1 : i8, -1 : i8], [true, false]] : !hw.struct<p: !hw.array<2xi8>, q: !hw.array<2xi1>>
    hw.output
  }
}
// -----
// a blank before the number of a result
module {
  hw.module @Q(in %x : i8, out o : i8) {
    hw.output %x : i8
  }
}
// -----
// operations at the limits of widths, and registers below their uses
module {
  hw.module @B(in %a : i8, in %w : i128, in %r : !hw.array<1xi8>, in %i : i1, in %clk : !seq.clock) {
    %0 = comb.extract %a from 0 : (i8) -> i8
    %1 = comb.replicate %a : (i8) -> i128
    %2 = comb.concat %w : i128
    %3 = hw.array_get %r[%i] : !hw.array<1xi8>, i1
    %4 = hw.array_slice %r[%i] : (!hw.array<1xi8>) -> !hw.array<1xi8>
    %c-128_i8 = hw.constant -128 : i8
    %5 = comb.divs %a, %c-128_i8 : i8
    %6 = seq.compreg %7, %clk : i8
    %7 = comb.add %6, %8 : i8
    %8 = seq.firreg %7 clock %clk reset sync %i, %a : i8
    hw.output
  }
}
// -----
// 32 types in one another
module {
  hw.module @D(in %a : !hw.array<1x!hw.array<1x!hw.array<1x!hw.array<1x!hw.array<1x!hw.array<1x!hw.array<1x!hw.array<1x!hw.array<1x!hw.array<1x!hw.array<1x!hw.array<1x!hw.array<1x!hw.array<1x!hw.array<1x!hw.array<1x!hw.array<1x!hw.array<1x!hw.array<1x!hw.array<1x!hw.array<1x!hw.array<1x!hw.array<1x!hw.array<1x!hw.array<1x!hw.array<1x!hw.array<1x!hw.array<1x!hw.array<1x!hw.array<1x!hw.array<1x!hw.array<1xi8>>>>>>>>>>>>>>>>>>>>>>>>>>>>>>>>) {
    hw.output
  }
}
// -----
// the empty symbol, a blank after a sign, and zeros before a number
module {
  hw.module @""() {
    %c-5_i8 = hw.constant -5 : i8
    %true = hw.constant true
    %c7_i8 = hw.constant 7 : i8
    hw.output
  }
}
// -----
// a divisor that stands after
module {
  hw.module @T(in %a : i8, in %b : i8, out o : i8) {
    %0 = comb.divu %a, %c3_i8 : i8
    %c3_i8 = hw.constant 3 : i8
    hw.output %0 : i8
  }
}
// -----
// an operand that stands after
module {
  hw.module @T(in %a : i8, in %b : i8, out o : i8) {
    %0 = comb.xor %1, %a : i8
    %1 = comb.add %a, %b : i8
    hw.output %0 : i8
  }
}
