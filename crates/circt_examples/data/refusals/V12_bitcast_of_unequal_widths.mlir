// V12: a bitcast of eight bits to four
hw.module @T(in %a : i8, out o : i8) {
  %0 = hw.bitcast %a : (i8) -> i4
  hw.output %a : i8
}
// -----
// V12: a bitcast of a struct of 16 bits to an array of 24
hw.module @T(in %a : i8, in %s : !hw.struct<x: i8, y: i8>, out o : i8) {
  %0 = hw.bitcast %s : (!hw.struct<x: i8, y: i8>) -> !hw.array<3xi8>
  hw.output %a : i8
}
// -----
// V12: a bitcast of eight bits to nine
hw.module @T(in %a : i8) {
  %0 = hw.bitcast %a : (i8) -> i9
}
