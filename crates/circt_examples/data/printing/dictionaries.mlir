// entries in another order, one without a value
hw.module @D(in %a : i8, in %clk : !seq.clock) {
  %0 = comb.add %a, %a : i8 {b = 5, a}
}
// -----
// entries of a quoted name, true, false, a symbol and a hint
hw.module @D(in %a : i8, in %clk : !seq.clock) {
  %0 = comb.add %a, %a {"a b" = true, "k" = false, B = @s, sv.namehint = "sum"} : i8
}
// -----
// an empty hint, and an empty dictionary
hw.module @D(in %a : i8, in %clk : !seq.clock) {
  %0 = comb.add %a, %a {sv.namehint = ""} : i8
  %1 = comb.add %a, %a {} : i8
}
// -----
// lists in lists, of numbers, strings, symbols and a typed number
hw.module @D(in %a : i8, in %clk : !seq.clock) {
  hw.output {l = [1, "x", [], [@t, true, -3 : i4]]}
}
// -----
// numbers with types, hexadecimal, and at both ends of their range
hw.module @D(in %a : i8, in %clk : !seq.clock) {
  hw.output {a = 300 : i8, b = 1 : i0, c = 1 : !seq.clock, d = 0xFF, e = 18446744073709551615, f = -9223372036854775808}
}
// -----
// strings with escapes, bytes above 127, and an empty one
hw.module @D(in %a : i8, in %clk : !seq.clock) {
  hw.output {s = "a\09b\22\\c\n\t~\7F", t = "	é", u = ""}
}
// -----
// the dictionary of a module
hw.module @D() attributes {z, y = "v"} {
}
// -----
// an empty dictionary of a module, and dictionaries of constants
hw.module @D() attributes {} {
  %0 = hw.constant true {k}
  %1 = hw.constant 3 : i8 {k}
}
// -----
// the dictionary of a register, with its name
hw.module @D(in %a : i8, in %clk : !seq.clock) {
  %r = seq.compreg %a, %clk {zz, "name" = "q r", aa} : i8
}
// -----
// the dictionary of an instance
hw.module @C(in %a : i8) {}
hw.module @D(in %a : i8, in %clk : !seq.clock) {
  hw.instance "u" @C(a: %a: i8) -> () {k = "v"}
}
// -----
// the dictionary of hw.output
hw.module @D(in %a : i8, out o : i8) {
  hw.output %a : i8 {k}
}
