// comb.mul with `bin`
hw.module @M(in %a : i8, in %c : i1, in %clk : !seq.clock, in %i : i2, in %s : !hw.struct<x: i8>, in %v : !hw.array<3xi8>) {
  %x = comb.mul bin %a, %a : i8
}
// -----
// comb.sub with a dictionary that has a list in a list
hw.module @M(in %a : i8, in %c : i1, in %clk : !seq.clock, in %i : i2, in %s : !hw.struct<x: i8>, in %v : !hw.array<3xi8>) {
  %x = comb.sub %a, %a : i8 {u, k = [1 : i4, "t", @sym, true, [-2]]}
}
// -----
// comb.icmp with `bin`
hw.module @M(in %a : i8, in %c : i1, in %clk : !seq.clock, in %i : i2, in %s : !hw.struct<x: i8>, in %v : !hw.array<3xi8>) {
  %x = comb.icmp bin slt %a, %a : i8
}
// -----
// comb.extract
hw.module @M(in %a : i8, in %c : i1, in %clk : !seq.clock, in %i : i2, in %s : !hw.struct<x: i8>, in %v : !hw.array<3xi8>) {
  %x = comb.extract %a from 1 : (i8) -> i4
}
// -----
// comb.concat of 8 bits and one
hw.module @M(in %a : i8, in %c : i1, in %clk : !seq.clock, in %i : i2, in %s : !hw.struct<x: i8>, in %v : !hw.array<3xi8>) {
  %x = comb.concat %a, %c : i8, i1
}
// -----
// comb.mux of 8 bits
hw.module @M(in %a : i8, in %c : i1, in %clk : !seq.clock, in %i : i2, in %s : !hw.struct<x: i8>, in %v : !hw.array<3xi8>) {
  %x = comb.mux %c, %a, %a : i8
}
// -----
// hw.constant true with a dictionary
hw.module @M(in %a : i8, in %c : i1, in %clk : !seq.clock, in %i : i2, in %s : !hw.struct<x: i8>, in %v : !hw.array<3xi8>) {
  %x = hw.constant true {e}
}
// -----
// hw.constant - 1 of type i1
hw.module @M(in %a : i8, in %c : i1, in %clk : !seq.clock, in %i : i2, in %s : !hw.struct<x: i8>, in %v : !hw.array<3xi8>) {
  %x = hw.constant - 1 : i1
}
// -----
// hw.aggregate_constant of a struct with an array in it
hw.module @M(in %a : i8, in %c : i1, in %clk : !seq.clock, in %i : i2, in %s : !hw.struct<x: i8>, in %v : !hw.array<3xi8>) {
  %x = hw.aggregate_constant [255 : i8, [true]] : !hw.struct<a: i8, b: !hw.array<1xi1>>
}
// -----
// hw.array_inject
hw.module @M(in %a : i8, in %c : i1, in %clk : !seq.clock, in %i : i2, in %s : !hw.struct<x: i8>, in %v : !hw.array<3xi8>) {
  %x = hw.array_inject %v[%i], %a : !hw.array<3xi8>, i2
}
// -----
// hw.struct_create with a quoted field name
hw.module @M(in %a : i8, in %c : i1, in %clk : !seq.clock, in %i : i2, in %s : !hw.struct<x: i8>, in %v : !hw.array<3xi8>) {
  %x = hw.struct_create (%a) : !hw.struct<"y y": i8>
}
// -----
// hw.struct_inject
hw.module @M(in %a : i8, in %c : i1, in %clk : !seq.clock, in %i : i2, in %s : !hw.struct<x: i8>, in %v : !hw.array<3xi8>) {
  %x = hw.struct_inject %s["x"], %a : !hw.struct<x: i8>
}
// -----
// hw.wire with a name that is no value's name, and a dictionary
hw.module @M(in %a : i8, in %c : i1, in %clk : !seq.clock, in %i : i2, in %s : !hw.struct<x: i8>, in %v : !hw.array<3xi8>) {
  %w = hw.wire %a {name = "w w", z, a} : i8
}
// -----
// hw.instance with a symbol, of a private module with quoted names
hw.module private @"O o"(in %a : i8, in %b "b b" : i1, out p : i8, out "q\0A" : i8) {
  hw.output %a, %a : i8, i8
}
hw.module @M(in %a : i8, in %c : i1, in %clk : !seq.clock, in %i : i2, in %s : !hw.struct<x: i8>, in %v : !hw.array<3xi8>) {
  %p, %q = hw.instance "u" sym @i @"O o"(a: %a: i8, "b b": %c: i1) -> (p: i8, "q\0A": i8) {d}
}
// -----
// seq.compreg.ce with a reset and the name of a port
hw.module @M(in %a : i8, in %c : i1, in %clk : !seq.clock, in %i : i2, in %s : !hw.struct<x: i8>, in %v : !hw.array<3xi8>) {
  %b = seq.compreg.ce %a, %clk, %c reset %c, %a {name = "a"} : i8
}
// -----
// seq.firreg with a synchronous reset and a number as name
hw.module @M(in %a : i8, in %c : i1, in %clk : !seq.clock, in %i : i2, in %s : !hw.struct<x: i8>, in %v : !hw.array<3xi8>) {
  %x = seq.firreg %a clock %clk reset sync %c, %a {name = "7"} : i8
}
