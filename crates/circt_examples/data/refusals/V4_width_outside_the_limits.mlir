// V4: a constant of 129 bits
hw.module @T(in %a : i8, out o : i8) {
  %0 = hw.constant 1 : i129
  hw.output %a : i8
}
// -----
// V4: a port of no bits
hw.module @T(in %a : i0) {
}
// -----
// V4: a port of 129 bits
hw.module @T(in %a : i129) {
}
// -----
// V4: a bitcast to an array of no elements
hw.module @T(in %a : i8, out o : i8) {
  %0 = hw.bitcast %a : (i8) -> !hw.array<0xi8>
  hw.output %a : i8
}
// -----
// V4: a bitcast to a struct without fields
hw.module @T(in %a : i8, out o : i8) {
  %0 = hw.bitcast %a : (i8) -> !hw.struct<>
  hw.output %a : i8
}
// -----
// V4: a port of 4,224 bits
hw.module @T(in %a : !hw.array<33xi128>) {
}
// -----
// V4: a port of 1,025 elements
hw.module @T(in %a : !hw.array<1025xi1>) {
}
// -----
// V4: a concat of 2,048 elements
hw.module @T(in %a : !hw.array<1024xi1>) {
  %0 = hw.array_concat %a, %a : !hw.array<1024xi1>, !hw.array<1024xi1>
}
// -----
// V4: an array of 2,048 bits in two elements of 1,024
hw.module @T(in %a : !hw.array<1024xi1>) {
  %0 = hw.array_create %a, %a : !hw.array<1024xi1>
}
// -----
// V4: 17 copies of eight bits
hw.module @T(in %a : i8, out o : i8) {
  %0 = comb.replicate %a : (i8) -> i136
  hw.output %a : i8
}
// -----
// V4: no copies of eight bits
hw.module @T(in %a : i8, out o : i8) {
  %0 = comb.replicate %a : (i8) -> i0
  hw.output %a : i8
}
// -----
// V4: a bitcast to an array of 1,025 elements
hw.module @T(in %a : i8) {
  %0 = hw.bitcast %a : (i8) -> !hw.array<1025xi1>
}
// -----
// V4: a bitcast to an array of 5,120 bits
hw.module @T(in %a : i8) {
  %0 = hw.bitcast %a : (i8) -> !hw.array<1024xi5>
}
// -----
// V4: a bitcast to 129 bits
hw.module @T(in %a : i8) {
  %0 = hw.bitcast %a : (i8) -> i129
}
