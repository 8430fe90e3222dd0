// RUN: circt opt --seq-lower-regs
// RUN: circt opt --pass-pipeline=builtin.module(hw.module(seq-lower-regs),symbol-dce,seq-lower-regs)
// an enable and a reset become muxes, that of the enable first
module {
  hw.module @T(in %clk : !seq.clock, in %rst : i1, in %en : i1, in %d : i8, out q : i8) {
    %c9_i8 = hw.constant 9 : i8
    %r = seq.compreg.ce %d, %clk, %en reset %rst, %c9_i8 : i8
    hw.output %r : i8
  }
}
// -----
// an enable alone, of 128 bits, with a dictionary
module {
  hw.module @T(in %clk : !seq.clock, in %en : i1, in %d : i128, out q : i128) {
    %r = seq.compreg.ce %d, %clk, %en {k} : i128
    hw.output %r : i128
  }
}
// -----
// a reset alone, of one bit
module {
  hw.module @T(in %clk : !seq.clock, in %rst : i1, in %d : i1, in %v : i1, out q : i1) {
    %r = seq.compreg %d, %clk reset %rst, %v : i1
    hw.output %r : i1
  }
}
// -----
// a synchronous reset of a seq.firreg
module {
  hw.module @T(in %clk : !seq.clock, in %rst : i1, in %d : i8, in %v : i8, out q : i8) {
    %r = seq.firreg %d clock %clk reset sync %rst, %v : i8
    hw.output %r : i8
  }
}
// -----
// registers that take one another's values
module {
  hw.module @T(in %clk : !seq.clock, in %en : i1, out o : i8, out p : i8) {
    %r = seq.compreg.ce %s, %clk, %en : i8
    %s = seq.compreg.ce %r, %clk, %en : i8
    hw.output %r, %s : i8, i8
  }
}
// -----
// a register that is its own enable, and one that is its own value
module {
  hw.module @T(in %clk : !seq.clock, in %d : i1, out o : i1, out p : i8) {
    %r = seq.compreg.ce %d, %clk, %r : i1
    %s = seq.compreg.ce %s, %clk, %r reset %r, %s : i8
    hw.output %r, %s : i1, i8
  }
}
// -----
// a register without a name, and a sum of it
module {
  hw.module @T(in %clk : !seq.clock, in %en : i1, in %d : i8, out o : i8, out p : i8) {
    %0 = seq.compreg.ce %d, %clk, %en : i8
    %1 = comb.add %0, %d : i8
    hw.output %0, %1 : i8, i8
  }
}
// -----
// registers of arrays and structs
module {
  hw.module @T(in %clk : !seq.clock, in %en : i1, in %a : !hw.array<2xi8>, in %s : !hw.struct<x: i8>, out o : !hw.array<2xi8>, out p : !hw.struct<x: i8>) {
    %r = seq.compreg.ce %a, %clk, %en : !hw.array<2xi8>
    %t = seq.compreg %s, %clk reset %en, %s : !hw.struct<x: i8>
    hw.output %r, %t : !hw.array<2xi8>, !hw.struct<x: i8>
  }
}
// -----
// a register of a private module, at its place
module {
  hw.module @T(in %clk : !seq.clock, in %en : i1, in %d : i8, out q : i8) {
    %u.q = hw.instance "u" @P(clk: %clk: !seq.clock, en: %en: i1, d: %d: i8) -> (q: i8)
    hw.output %u.q : i8
  }
  hw.module private @P(in %clk : !seq.clock, in %en : i1, in %d : i8, out q : i8) {
    %r = seq.compreg.ce %d, %clk, %en : i8
    hw.output %r : i8
  }
}
// -----
// registers without enable and reset stay
module {
  hw.module @T(in %clk : !seq.clock, in %d : i8, out o : i8, out p : i8) {
    %r = seq.compreg %d, %clk : i8
    %s = seq.firreg %r clock %clk : i8
    hw.output %r, %s : i8, i8
  }
}
// -----
// an asynchronous reset stays
module {
  hw.module @T(in %clk : !seq.clock, in %rst : i1, in %d : i8, out q : i8) {
    %c9_i8 = hw.constant 9 : i8
    %r = seq.firreg %d clock %clk reset async %rst, %c9_i8 : i8
    hw.output %r : i8
  }
}
