// V14: no result of an earlier name, which is none
hw.module @T(in %a : i8, out o : i8) {
  %0 = comb.add %a, %a : i8
  %0:0 = comb.xor %a, %a : i8
  hw.output %0 : i8
}
// -----
// V14: two results of a sum, the second of which is used before
hw.module @T(in %a : i8, out o : i8) {
  %1 = comb.add %b, %a : i8
  %0, %b = comb.add %a, %a : i8
  hw.output %0 : i8
}
// -----
// V14: an aggregate_constant of one number for two elements, in a module without ports
hw.module @T() {
  %0 = hw.aggregate_constant [1 : i8] : !hw.array<2xi8>
}
// -----
// V14: a sum with results 0 to 1
hw.module @T(in %a : i8) {
  %0:2 = comb.add %a, %a : i8
}
// -----
// V14: a sum without a result
hw.module @T(in %a : i8, out o : i8) {
  comb.add %a, %a : i8
  hw.output %a : i8
}
// -----
// V14: an output with a result
hw.module @T(in %a : i8, out o : i8) {
  %0 = hw.output %a : i8
}
// -----
// V14: a struct of two fields taken apart into three
hw.module @T(in %a : i8, in %s : !hw.struct<x: i8, y: i8>, out o : i8) {
  %0:3 = hw.struct_explode %s : !hw.struct<x: i8, y: i8>
  hw.output %a : i8
}
// -----
// V14: a sum with two results
hw.module @T(in %a : i8, out o : i8) {
  %0, %1 = comb.add %a, %a : i8
  hw.output %a : i8
}
// -----
// V14: a struct of two fields made of one value
hw.module @T(in %a : i8, out o : i8) {
  %0 = hw.struct_create (%a) : !hw.struct<x: i8, y: i8>
  hw.output %a : i8
}
// -----
// V14: a struct of two fields made of none
hw.module @T(in %a : i8, out o : i8) {
  %0 = hw.struct_create () : !hw.struct<x: i8, y: i8>
  hw.output %a : i8
}
// -----
// V14: an aggregate_constant of one number for two elements
hw.module @T(in %a : i8, out o : i8) {
  %0 = hw.aggregate_constant [1 : i8] : !hw.array<2xi8>
  hw.output %a : i8
}
// -----
// V14: an aggregate_constant of no number for two elements
hw.module @T(in %a : i8, out o : i8) {
  %0 = hw.aggregate_constant [] : !hw.array<2xi8>
  hw.output %a : i8
}
// -----
// V14: an instance of no module without a name for its result
hw.module @T(in %a : i8, out o : i8) {
  hw.instance "u" @Nope(d: %a: i8) -> (q: i8)
  hw.output %a : i8
}
// -----
// V14: a byte more than there are fields
hw.module @T(in %a : i8, in %s : i1, in %clk : !seq.clock) {
  %0 = hw.struct_create (%a, %a, %a) : !hw.struct<x: i8, y: i8>
}
