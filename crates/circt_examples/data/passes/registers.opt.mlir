// an enable and a reset become muxes, that of the enable first
module {
  hw.module @T(in %clk : !seq.clock, in %rst : i1, in %en : i1, in %d : i8, out q : i8) {
    %c9_i8 = hw.constant 9 : i8
    %0 = comb.mux %en, %d, %r : i8
    %1 = comb.mux %rst, %c9_i8, %0 : i8
    %r = seq.compreg %1, %clk : i8
    hw.output %r : i8
  }
}
// -----
// an enable alone, of 128 bits, with a dictionary
module {
  hw.module @T(in %clk : !seq.clock, in %en : i1, in %d : i128, out q : i128) {
    %0 = comb.mux %en, %d, %r : i128
    %r = seq.compreg %0, %clk {k} : i128
    hw.output %r : i128
  }
}
// -----
// a reset alone, of one bit
module {
  hw.module @T(in %clk : !seq.clock, in %rst : i1, in %d : i1, in %v : i1, out q : i1) {
    %0 = comb.mux %rst, %v, %d : i1
    %r = seq.compreg %0, %clk : i1
    hw.output %r : i1
  }
}
// -----
// a synchronous reset of a seq.firreg
module {
  hw.module @T(in %clk : !seq.clock, in %rst : i1, in %d : i8, in %v : i8, out q : i8) {
    %0 = comb.mux %rst, %v, %d : i8
    %r = seq.firreg %0 clock %clk : i8
    hw.output %r : i8
  }
}
// -----
// registers that take one another's values
module {
  hw.module @T(in %clk : !seq.clock, in %en : i1, out o : i8, out p : i8) {
    %0 = comb.mux %en, %s, %r : i8
    %r = seq.compreg %0, %clk : i8
    %1 = comb.mux %en, %r, %s : i8
    %s = seq.compreg %1, %clk : i8
    hw.output %r, %s : i8, i8
  }
}
// -----
// a register that is its own enable, and one that is its own value
module {
  hw.module @T(in %clk : !seq.clock, in %d : i1, out o : i1, out p : i8) {
    %0 = comb.mux %r, %d, %r : i1
    %r = seq.compreg %0, %clk : i1
    %1 = comb.mux %r, %s, %s : i8
    %2 = comb.mux %r, %s, %1 : i8
    %s = seq.compreg %2, %clk : i8
    hw.output %r, %s : i1, i8
  }
}
// -----
// a register without a name, and a sum of it
module {
  hw.module @T(in %clk : !seq.clock, in %en : i1, in %d : i8, out o : i8, out p : i8) {
    %0 = comb.mux %en, %d, %1 : i8
    %1 = seq.compreg %0, %clk : i8
    %2 = comb.add %1, %d : i8
    hw.output %1, %2 : i8, i8
  }
}
// -----
// registers of arrays and structs
module {
  hw.module @T(in %clk : !seq.clock, in %en : i1, in %a : !hw.array<2xi8>, in %s : !hw.struct<x: i8>, out o : !hw.array<2xi8>, out p : !hw.struct<x: i8>) {
    %0 = comb.mux %en, %a, %r : !hw.array<2xi8>
    %r = seq.compreg %0, %clk : !hw.array<2xi8>
    %1 = comb.mux %en, %s, %s : !hw.struct<x: i8>
    %t = seq.compreg %1, %clk : !hw.struct<x: i8>
    hw.output %r, %t : !hw.array<2xi8>, !hw.struct<x: i8>
  }
}
// -----
// a register of a private module, at its place
module {
  hw.module @T(in %clk : !seq.clock, in %en : i1, in %d : i8, out q : i8) {
    %u.q = hw.instance "u" @P(clk: %clk: !seq.clock, en: %en: i1, d: %d: i8) -> (q: i8)
    hw.output %u.q : i8
  }
  hw.module private @P(in %clk : !seq.clock, in %en : i1, in %d : i8, out q : i8) {
    %0 = comb.mux %en, %d, %r : i8
    %r = seq.compreg %0, %clk : i8
    hw.output %r : i8
  }
}
// -----
// registers without enable and reset stay
module {
  hw.module @T(in %clk : !seq.clock, in %d : i8, out o : i8, out p : i8) {
    %r = seq.compreg %d, %clk : i8
    %s = seq.firreg %r clock %clk : i8
    hw.output %r, %s : i8, i8
  }
}
// -----
// an asynchronous reset stays
module {
  hw.module @T(in %clk : !seq.clock, in %rst : i1, in %d : i8, out q : i8) {
    %c9_i8 = hw.constant 9 : i8
    %r = seq.firreg %d clock %clk reset async %rst, %c9_i8 : i8
    hw.output %r : i8
  }
}
