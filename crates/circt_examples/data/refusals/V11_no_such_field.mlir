// V11: struct_extract of a field that is not there, of two
hw.module @T(in %a : i8, in %s : !hw.struct<x: i8, y: i8>, out o : i8) {
  %0 = hw.struct_extract %s["z"] : !hw.struct<x: i8, y: i8>
  hw.output %a : i8
}
// -----
// V11: struct_inject of a field whose name begins as one that is there
hw.module @T(in %a : i8, in %s : !hw.struct<x: i8, y: i8>, out o : i8) {
  %0 = hw.struct_inject %s["xy"], %a : !hw.struct<x: i8, y: i8>
  hw.output %a : i8
}
// -----
// V11: an input that is a struct of two fields of one name and two widths
hw.module @T(in %s : !hw.struct<x: i8, x: i4>) {
}
// -----
// V11: a bitcast to a struct of two fields of one name
hw.module @T(in %a : i8, out o : i8) {
  %0 = hw.bitcast %a : (i8) -> !hw.struct<x: i4, x: i4>
  hw.output %a : i8
}
// -----
// V11: struct_extract of a field that is not there, between two
hw.module @T(in %s : !hw.struct<a: i8, c: i8>) {
  %0 = hw.struct_extract %s["b"] : !hw.struct<a: i8, c: i8>
}
// -----
// V11: a struct made of two fields of one name
hw.module @T(in %a : i8) {
  %0 = hw.struct_create (%a, %a) : !hw.struct<b: i8, b: i8>
}
