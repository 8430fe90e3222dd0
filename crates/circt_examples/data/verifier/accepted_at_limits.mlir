// an array of 4,096 bits
hw.module @T(in %a : !hw.array<1024xi4>) {
  %0 = hw.wire %a : !hw.array<1024xi4>
  hw.output
}
// -----
// an integer of 128 bits
hw.module @T(in %a : i128, out o : i128) {
  %0 = comb.xor %a : i128
  hw.output %0 : i128
}
// -----
// an index of three bits into five elements
hw.module @T(in %a : !hw.array<5xi8>, in %i : i3, out o : i8) {
  %0 = hw.array_get %a[%i] : !hw.array<5xi8>, i3
  hw.output %0 : i8
}
// -----
// an index of one bit into one element
hw.module @T(in %a : !hw.array<1xi8>, in %i : i1, out o : i8) {
  %0 = hw.array_get %a[%i] : !hw.array<1xi8>, i1
  hw.output %0 : i8
}
// -----
// a concatenation of 128 bits
hw.module @T(in %a : i64, out o : i128) {
  %0 = comb.concat %a, %a : i64, i64
  hw.output %0 : i128
}
// -----
// three copies of eight bits
hw.module @T(in %a : i8, out o : i24) {
  %0 = comb.replicate %a : (i8) -> i24
  hw.output %0 : i24
}
// -----
// an extract of the highest four of eight bits
hw.module @T(in %a : i8, out o : i4) {
  %0 = comb.extract %a from 4 : (i8) -> i4
  hw.output %0 : i4
}
// -----
// the least constant of eight bits
hw.module @T(out o : i8) {
  %c-128_i8 = hw.constant -128 : i8
  hw.output %c-128_i8 : i8
}
// -----
// the second field of two
hw.module @T(in %s : !hw.struct<a: i8, b: i8>, out o : i8) {
  %0 = hw.struct_extract %s["b"] : !hw.struct<a: i8, b: i8>
  hw.output %0 : i8
}
// -----
// a bitcast of eight bits to eight bits
hw.module @T(in %a : i8, out o : i8) {
  %0 = hw.bitcast %a : (i8) -> i8
  hw.output %0 : i8
}
// -----
// an aggregate_constant with a number for each element
hw.module @T(out o : !hw.array<2xi8>) {
  %0 = hw.aggregate_constant [1 : i8, 2 : i8] : !hw.array<2xi8>
  hw.output %0 : !hw.array<2xi8>
}
