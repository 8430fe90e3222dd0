// entries in another order, one without a value
module {
  hw.module @D(in %a : i8, in %clk : !seq.clock) {
    %0 = comb.add %a, %a {a, b = 5 : i64} : i8
    hw.output
  }
}
// -----
// entries of a quoted name, true, false, a symbol and a hint
module {
  hw.module @D(in %a : i8, in %clk : !seq.clock) {
    %0 = comb.add %a, %a {B = @s, "a b" = true, k = false, sv.namehint = "sum"} : i8
    hw.output
  }
}
// -----
// an empty hint, and an empty dictionary
module {
  hw.module @D(in %a : i8, in %clk : !seq.clock) {
    %0 = comb.add %a, %a : i8
    %1 = comb.add %a, %a : i8
    hw.output
  }
}
// -----
// lists in lists, of numbers, strings, symbols and a typed number
module {
  hw.module @D(in %a : i8, in %clk : !seq.clock) {
    hw.output {l = [1 : i64, "x", [], [@t, true, -3 : i4]]}
  }
}
// -----
// numbers with types, hexadecimal, and at both ends of their range
module {
  hw.module @D(in %a : i8, in %clk : !seq.clock) {
    hw.output {a = 300 : i8, b = 1 : i0, c = 1 : !seq.clock, d = 255 : i64, e = 18446744073709551615 : i64, f = -9223372036854775808 : i64}
  }
}
// -----
// strings with escapes, bytes above 127, and an empty one
module {
  hw.module @D(in %a : i8, in %clk : !seq.clock) {
    hw.output {s = "a\09b\22\\c\0A\09~\7F", t = "\09\C3\A9", u = ""}
  }
}
// -----
// the dictionary of a module
module {
  hw.module @D() attributes {y = "v", z} {
    hw.output
  }
}
// -----
// an empty dictionary of a module, and dictionaries of constants
module {
  hw.module @D() {
    %true = hw.constant true {k}
    %c3_i8 = hw.constant 3 {k} : i8
    hw.output
  }
}
// -----
// the dictionary of a register, with its name
module {
  hw.module @D(in %a : i8, in %clk : !seq.clock) {
    %_q_r = seq.compreg %a, %clk {aa, name = "q r", zz} : i8
    hw.output
  }
}
// -----
// the dictionary of an instance
module {
  hw.module @C(in %a : i8) {
    hw.output
  }
  hw.module @D(in %a : i8, in %clk : !seq.clock) {
    hw.instance "u" @C(a: %a: i8) -> () {k = "v"}
    hw.output
  }
}
// -----
// the dictionary of hw.output
module {
  hw.module @D(in %a : i8, out o : i8) {
    hw.output %a {k} : i8
  }
}
