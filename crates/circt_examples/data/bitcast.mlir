// 16 bits to an array, of which an element is taken, and to a struct
hw.module @B(in %x : i16, out h : i8, out s : !hw.struct<p: i8, q: i8>) {
  %i = hw.constant true
  %0 = hw.bitcast %x : (i16) -> !hw.array<2xi8>
  %1 = hw.array_get %0[%i] : !hw.array<2xi8>, i1
  %2 = hw.bitcast %x : (i16) -> !hw.struct<p: i8, q: i8>
  hw.output %1, %2 : i8, !hw.struct<p: i8, q: i8>
}
