// array_get of three elements at a 2-bit index, against muxes: past the end it is 0
hw.module @p(in %a : i8, in %b : i8, in %c : i8, in %i : i2, out o : i8) {
  %0 = hw.array_create %a, %b, %c : i8
  %1 = hw.array_get %0[%i] : !hw.array<3xi8>, i2
  hw.output %1 : i8
}
hw.module @q(in %a : i8, in %b : i8, in %c : i8, in %i : i2, out o : i8) {
  %zero = hw.constant 0 : i2
  %one = hw.constant 1 : i2
  %two = hw.constant -2 : i2
  %none = hw.constant 0 : i8
  %e0 = comb.icmp eq %i, %zero : i2
  %e1 = comb.icmp eq %i, %one : i2
  %e2 = comb.icmp eq %i, %two : i2
  %0 = comb.mux %e2, %a, %none : i8
  %1 = comb.mux %e1, %b, %0 : i8
  %2 = comb.mux %e0, %c, %1 : i8
  hw.output %2 : i8
}
// -----
// array_get of three elements, against muxes that give the last element past the end
hw.module @p(in %a : i8, in %b : i8, in %c : i8, in %i : i2, out o : i8) {
  %0 = hw.array_create %a, %b, %c : i8
  %1 = hw.array_get %0[%i] : !hw.array<3xi8>, i2
  hw.output %1 : i8
}
hw.module @q(in %a : i8, in %b : i8, in %c : i8, in %i : i2, out o : i8) {
  %zero = hw.constant 0 : i2
  %one = hw.constant 1 : i2
  %e0 = comb.icmp eq %i, %zero : i2
  %e1 = comb.icmp eq %i, %one : i2
  %1 = comb.mux %e1, %b, %a : i8
  %2 = comb.mux %e0, %c, %1 : i8
  hw.output %2 : i8
}
// -----
// a struct made of its own two fields, against the struct
hw.module @p(in %s : !hw.struct<x: i3, y: i3>, out o : !hw.struct<x: i3, y: i3>) {
  %x = hw.struct_extract %s["x"] : !hw.struct<x: i3, y: i3>
  %y = hw.struct_extract %s["y"] : !hw.struct<x: i3, y: i3>
  %0 = hw.struct_create (%x, %y) : !hw.struct<x: i3, y: i3>
  hw.output %0 : !hw.struct<x: i3, y: i3>
}
hw.module @q(in %s : !hw.struct<x: i3, y: i3>, out o : !hw.struct<x: i3, y: i3>) {
  hw.output %s : !hw.struct<x: i3, y: i3>
}
// -----
// a struct made of its two fields exchanged, against the struct
hw.module @p(in %s : !hw.struct<x: i3, y: i3>, out o : !hw.struct<x: i3, y: i3>) {
  %x, %y = hw.struct_explode %s : !hw.struct<x: i3, y: i3>
  %0 = hw.struct_create (%y, %x) : !hw.struct<x: i3, y: i3>
  hw.output %0 : !hw.struct<x: i3, y: i3>
}
hw.module @q(in %s : !hw.struct<x: i3, y: i3>, out o : !hw.struct<x: i3, y: i3>) {
  hw.output %s : !hw.struct<x: i3, y: i3>
}
// -----
// a bitcast of a struct, against a concat of its fields: the last has the lowest bits
hw.module @p(in %s : !hw.struct<x: i3, y: i5>, out o : i8) {
  %0 = hw.bitcast %s : (!hw.struct<x: i3, y: i5>) -> i8
  hw.output %0 : i8
}
hw.module @q(in %s : !hw.struct<x: i3, y: i5>, out o : i8) {
  %x, %y = hw.struct_explode %s : !hw.struct<x: i3, y: i5>
  %0 = comb.concat %x, %y : i3, i5
  hw.output %0 : i8
}
// -----
// a register of an array, against a register for each element
hw.module @p(in %clk : !seq.clock, in %d : !hw.array<2xi8>, out o : !hw.array<2xi8>) {
  %r = seq.compreg %d, %clk : !hw.array<2xi8>
  hw.output %r : !hw.array<2xi8>
}
hw.module @q(in %clk : !seq.clock, in %d : !hw.array<2xi8>, out o : !hw.array<2xi8>) {
  %false = hw.constant false
  %true = hw.constant true
  %d0 = hw.array_get %d[%false] : !hw.array<2xi8>, i1
  %d1 = hw.array_get %d[%true] : !hw.array<2xi8>, i1
  %r1 = seq.compreg %d1, %clk : i8
  %r0 = seq.compreg %d0, %clk : i8
  %0 = hw.array_create %r1, %r0 : i8
  hw.output %0 : !hw.array<2xi8>
}
