// ports with numbers as values' names, and with quoted names
module {
  hw.module @N(in %_0 "0" : i8, in %_x_y "x y" : i8, in %_ "" : i8, in %a : i8, out "o-p" : i8, out q : i8) {
    hw.output %_0, %_x_y : i8, i8
  }
}
// -----
// ports whose names become one name of values
module {
  hw.module @N(in %a.b : i8, in %a-b : i8, in %_a_b "a b" : i8, in %_a_b_0 "_a_b" : i8) {
    hw.output
  }
}
// -----
// constants, whose names are made of their values, beside ports of such names
module {
  hw.module @N(in %c5_i8 : i8, in %true : i1, out o : i8) {
    %c5_i8_0 = hw.constant 5 : i8
    %c5_i8_1 = hw.constant 5 : i8
    %true_0 = hw.constant true
    %true_1 = hw.constant true
    %false = hw.constant false
    %c-128_i8 = hw.constant -128 : i8
    %c-1_i8 = hw.constant -1 : i8
    hw.output %c5_i8 : i8
  }
}
// -----
// registers and wires with numbers, names, and an empty name
module {
  hw.module @N(in %clk : !seq.clock, in %d : i8) {
    %r = seq.compreg %d, %clk : i8
    %r_0 = seq.compreg %d, %clk {name = "r"} : i8
    %0 = seq.compreg %d, %clk : i8
    %s = seq.firreg %d clock %clk : i8
    %_a_b = hw.wire %d {name = "a b"} : i8
    %1 = hw.wire %d : i8
    %_12 = hw.wire %d {name = "12"} : i8
    %2 = comb.add %d, %d : i8
    hw.output
  }
}
// -----
// registers with the names of ports
module {
  hw.module @N(in %r : i8, in %r_0 : i8, in %clk : !seq.clock) {
    %r_1 = seq.compreg %r, %clk {name = "r"} : i8
    %r_0_0 = seq.compreg %r, %clk {name = "r_0"} : i8
    hw.output
  }
}
// -----
// modules, instances and ports with quoted names, several results by number
module {
  hw.module @"a b"(in %d : i8, out q : i8, out "p-" : i8) {
    hw.output %d, %d : i8, i8
  }
  hw.module @N(in %d : i8) {
    %u.q, %u.p- = hw.instance "u" sym @s @"a b"(d: %d: i8) -> (q: i8, "p-": i8)
    %u.q_0, %u.p-_0 = hw.instance "u" @"a b"(d: %u.p-: i8) -> (q: i8, "p-": i8)
    %.q, %.p- = hw.instance "" @"a b"(d: %u.p-_0: i8) -> (q: i8, "p-": i8)
    hw.instance "N" @"C-1"() -> ()
    hw.output
  }
  hw.module @"C-1"() {
    hw.output
  }
}
// -----
// fields with quoted names
module {
  hw.module @N(in %s : !hw.struct<"a b": i8>, in %t : !hw.struct<x: i8, y: i4>, out o : i8) {
    %0 = hw.struct_explode %s : !hw.struct<"a b": i8>
    %1:2 = hw.struct_explode %t : !hw.struct<x: i8, y: i4>
    %2 = hw.struct_extract %s["a b"] : !hw.struct<"a b": i8>
    hw.output %1#0 : i8
  }
}
