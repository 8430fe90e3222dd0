// an input that is an array
hw.module @T(in %r : !hw.array<2xi8>) {}
// -----
// an output that is a struct, made of an input
hw.module @T(in %a : i8, out s : !hw.struct<x: i8>) {
  %0 = hw.struct_create (%a) : !hw.struct<x: i8>
  hw.output %0 : !hw.struct<x: i8>
}
// -----
// an array that nothing uses, of a sum that has another use
hw.module @T(in %a : i8, out o : i8) {
  %0 = comb.add %a, %a : i8
  %1 = hw.array_create %a, %0 : i8
  hw.output %0 : i8
}
// -----
// a bitcast to an array that nothing uses
hw.module @T(in %a : i8) {
  %0 = hw.bitcast %a : (i8) -> !hw.array<2xi4>
}
// -----
// an aggregate_constant that nothing uses
hw.module @T() {
  %0 = hw.aggregate_constant [1 : i8, 2 : i8] : !hw.array<2xi8>
}
// -----
// a struct that nothing uses
hw.module @T(in %a : i8) {
  %0 = hw.struct_create (%a) : !hw.struct<x: i8>
}
// -----
// a wire of a struct stands before the operation that makes it
hw.module @T(in %a : i8) {
  %w = hw.wire %0 : !hw.struct<x: i8>
  %0 = hw.struct_create (%a) : !hw.struct<x: i8>
}
// -----
// a field is taken of a struct that is made after it
hw.module @T(in %a : i8, out o : i8) {
  %1 = hw.struct_extract %0["x"] : !hw.struct<x: i8>
  %0 = hw.struct_create (%a) : !hw.struct<x: i8>
  hw.output %1 : i8
}
// -----
// a mux of an array that is made after it, which nothing uses
hw.module @T(in %s : i1) {
  %1 = comb.mux %s, %0, %0 : !hw.array<1xi1>
  %0 = hw.array_create %s : i1
}
// -----
// a register of an array that is made after it
hw.module @T(in %clk : !seq.clock, in %s : i1) {
  %r = seq.compreg %0, %clk : !hw.array<1xi1>
  %0 = hw.array_create %s : i1
}
// -----
// a module with an array after one without
hw.module @A(in %a : i8, out o : i8) {
  hw.output %a : i8
}
hw.module @B(in %r : !hw.array<2xi8>) {}
// -----
// an instance with an array stands before its module's header
hw.module @P() {
  %u.o = hw.instance "u" @C() -> (o: !hw.array<1xi1>)
}
hw.module @C(out o : !hw.array<1xi1>) {
  %t = hw.constant true
  %0 = hw.array_create %t : i1
  hw.output %0 : !hw.array<1xi1>
}
