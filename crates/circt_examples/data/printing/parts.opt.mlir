// comb.mul with `bin`
module {
  hw.module @M(in %a : i8, in %c : i1, in %clk : !seq.clock, in %i : i2, in %s : !hw.struct<x: i8>, in %v : !hw.array<3xi8>) {
    %0 = comb.mul bin %a, %a : i8
    hw.output
  }
}
// -----
// comb.sub with a dictionary that has a list in a list
module {
  hw.module @M(in %a : i8, in %c : i1, in %clk : !seq.clock, in %i : i2, in %s : !hw.struct<x: i8>, in %v : !hw.array<3xi8>) {
    %0 = comb.sub %a, %a {k = [1 : i4, "t", @sym, true, [-2 : i64]], u} : i8
    hw.output
  }
}
// -----
// comb.icmp with `bin`
module {
  hw.module @M(in %a : i8, in %c : i1, in %clk : !seq.clock, in %i : i2, in %s : !hw.struct<x: i8>, in %v : !hw.array<3xi8>) {
    %0 = comb.icmp bin slt %a, %a : i8
    hw.output
  }
}
// -----
// comb.extract
module {
  hw.module @M(in %a : i8, in %c : i1, in %clk : !seq.clock, in %i : i2, in %s : !hw.struct<x: i8>, in %v : !hw.array<3xi8>) {
    %0 = comb.extract %a from 1 : (i8) -> i4
    hw.output
  }
}
// -----
// comb.concat of 8 bits and one
module {
  hw.module @M(in %a : i8, in %c : i1, in %clk : !seq.clock, in %i : i2, in %s : !hw.struct<x: i8>, in %v : !hw.array<3xi8>) {
    %0 = comb.concat %a, %c : i8, i1
    hw.output
  }
}
// -----
// comb.mux of 8 bits
module {
  hw.module @M(in %a : i8, in %c : i1, in %clk : !seq.clock, in %i : i2, in %s : !hw.struct<x: i8>, in %v : !hw.array<3xi8>) {
    %0 = comb.mux %c, %a, %a : i8
    hw.output
  }
}
// -----
// hw.constant true with a dictionary
module {
  hw.module @M(in %a : i8, in %c : i1, in %clk : !seq.clock, in %i : i2, in %s : !hw.struct<x: i8>, in %v : !hw.array<3xi8>) {
    %true = hw.constant true {e}
    hw.output
  }
}
// -----
// hw.constant - 1 of type i1
module {
  hw.module @M(in %a : i8, in %c : i1, in %clk : !seq.clock, in %i : i2, in %s : !hw.struct<x: i8>, in %v : !hw.array<3xi8>) {
    %true = hw.constant true
    hw.output
  }
}
// -----
// hw.aggregate_constant of a struct with an array in it
module {
  hw.module @M(in %a : i8, in %c : i1, in %clk : !seq.clock, in %i : i2, in %s : !hw.struct<x: i8>, in %v : !hw.array<3xi8>) {
    %0 = hw.aggregate_constant [-1 : i8, [true]] : !hw.struct<a: i8, b: !hw.array<1xi1>>
    hw.output
  }
}
// -----
// hw.array_inject
module {
  hw.module @M(in %a : i8, in %c : i1, in %clk : !seq.clock, in %i : i2, in %s : !hw.struct<x: i8>, in %v : !hw.array<3xi8>) {
    %0 = hw.array_inject %v[%i], %a : !hw.array<3xi8>, i2
    hw.output
  }
}
// -----
// hw.struct_create with a quoted field name
module {
  hw.module @M(in %a : i8, in %c : i1, in %clk : !seq.clock, in %i : i2, in %s : !hw.struct<x: i8>, in %v : !hw.array<3xi8>) {
    %0 = hw.struct_create (%a) : !hw.struct<"y y": i8>
    hw.output
  }
}
// -----
// hw.struct_inject
module {
  hw.module @M(in %a : i8, in %c : i1, in %clk : !seq.clock, in %i : i2, in %s : !hw.struct<x: i8>, in %v : !hw.array<3xi8>) {
    %0 = hw.struct_inject %s["x"], %a : !hw.struct<x: i8>
    hw.output
  }
}
// -----
// hw.wire with a name that is no value's name, and a dictionary
module {
  hw.module @M(in %a : i8, in %c : i1, in %clk : !seq.clock, in %i : i2, in %s : !hw.struct<x: i8>, in %v : !hw.array<3xi8>) {
    %_w_w = hw.wire %a {a, name = "w w", z} : i8
    hw.output
  }
}
// -----
// hw.instance with a symbol, of a private module with quoted names
module {
  hw.module private @"O o"(in %a : i8, in %_b_b "b b" : i1, out p : i8, out "q\0A" : i8) {
    hw.output %a, %a : i8, i8
  }
  hw.module @M(in %a : i8, in %c : i1, in %clk : !seq.clock, in %i : i2, in %s : !hw.struct<x: i8>, in %v : !hw.array<3xi8>) {
    %u.p, %_u.q_ = hw.instance "u" sym @i @"O o"(a: %a: i8, "b b": %c: i1) -> (p: i8, "q\0A": i8) {d}
    hw.output
  }
}
// -----
// seq.compreg.ce with a reset and the name of a port
module {
  hw.module @M(in %a : i8, in %c : i1, in %clk : !seq.clock, in %i : i2, in %s : !hw.struct<x: i8>, in %v : !hw.array<3xi8>) {
    %a_0 = seq.compreg.ce %a, %clk, %c reset %c, %a {name = "a"} : i8
    hw.output
  }
}
// -----
// seq.firreg with a synchronous reset and a number as name
module {
  hw.module @M(in %a : i8, in %c : i1, in %clk : !seq.clock, in %i : i2, in %s : !hw.struct<x: i8>, in %v : !hw.array<3xi8>) {
    %_7 = seq.firreg %a clock %clk reset sync %c, %a {name = "7"} : i8
    hw.output
  }
}
