// ports with numbers as values' names, and with quoted names
hw.module @N(in %0 : i8, in %1 "x y" : i8, in %2 "" : i8, in %v "a" : i8, out "o-p" : i8, out "q" : i8) {
  hw.output %0, %1 : i8, i8
}
// -----
// ports whose names become one name of values
hw.module @N(in %p "a.b" : i8, in %q "a-b" : i8, in %r "a b" : i8, in %s "_a_b" : i8) {
}
// -----
// constants, whose names are made of their values, beside ports of such names
hw.module @N(in %c5_i8 : i8, in %true : i1, out o : i8) {
  %a = hw.constant 5 : i8
  %b = hw.constant 5 : i8
  %c = hw.constant true
  %d = hw.constant 1 : i1
  %e = hw.constant 0 : i1
  %f = hw.constant -128 : i8
  %g = hw.constant 0xFF : i8
  hw.output %c5_i8 : i8
}
// -----
// registers and wires with numbers, names, and an empty name
hw.module @N(in %clk : !seq.clock, in %d : i8) {
  %r = seq.compreg %d, %clk : i8
  %x = seq.compreg %d, %clk {name = "r"} : i8
  %7 = seq.compreg %d, %clk : i8
  %8 = seq.firreg %d clock %clk {name = "s"} : i8
  %y = hw.wire %d {name = "a b"} : i8
  %z = hw.wire %d {name = ""} : i8
  %t = hw.wire %d {name = "12"} : i8
  %9 = comb.add %d, %d : i8
}
// -----
// registers with the names of ports
hw.module @N(in %r : i8, in %r_0 : i8, in %clk : !seq.clock) {
  %x = seq.compreg %r, %clk {name = "r"} : i8
  %y = seq.compreg %r, %clk {name = "r_0"} : i8
}
// -----
// modules, instances and ports with quoted names, several results by number
hw.module @"a b"(in %d : i8, out q : i8, out "p-" : i8) {
  hw.output %d, %d : i8, i8
}
hw.module @"N"(in %d : i8) {
  %x, %y = hw.instance "u" sym @s @"a b"(d: %d: i8) -> (q: i8, "p-": i8)
  %v:2 = hw.instance "u" @"a b"(d: %y: i8) -> (q: i8, "p-": i8)
  %e, %f = hw.instance "" @"a b"("d": %v#1: i8) -> ("q": i8, "p-": i8)
  %g:0 = hw.instance "N" @C-1() -> ()
}
hw.module @C-1() {}
// -----
// fields with quoted names
hw.module @N(in %s : !hw.struct<"a b": i8>, in %t : !hw.struct<x: i8, y: i4>, out o : i8) {
  %f = hw.struct_explode %s : !hw.struct<"a b": i8>
  %g, %h = hw.struct_explode %t : !hw.struct<"x": i8, y: i4>
  %i = hw.struct_extract %s["a b"] : !hw.struct<"a b": i8>
  hw.output %g : i8
}
