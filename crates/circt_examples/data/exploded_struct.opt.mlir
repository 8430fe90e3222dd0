// a struct taken apart below where its fields are used
module {
  hw.module @E(in %s : !hw.struct<x: i8, y: i8>, out c : i8) {
    %0 = comb.sub %1#1, %1#0 : i8
    %1:2 = hw.struct_explode %s : !hw.struct<x: i8, y: i8>
    hw.output %0 : i8
  }
}
