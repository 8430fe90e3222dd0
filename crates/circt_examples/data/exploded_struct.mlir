// a struct taken apart below where its fields are used
hw.module @E(in %s : !hw.struct<x: i8, y: i8>, out c : i8) {
  %1 = comb.sub %f#1, %f#0 : i8
  %f:2 = hw.struct_explode %s : !hw.struct<x: i8, y: i8>
  hw.output %1 : i8
}
