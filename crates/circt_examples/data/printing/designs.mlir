// an empty text
// -----
// an empty list of modules
module {
}
// -----
// an empty module
hw.module @M() {}
// -----
// a sum of 8 bits
hw.module @Add8(in %a : i8, in %b : i8, out c : i8) {
  %0 = comb.add %a, %b : i8
  hw.output %0 : i8
}
// -----
// a constant of 8 bits that is written 255
hw.module @K(out c : i8) {
  %x = hw.constant 255 : i8
  hw.output %x : i8
}
// -----
// ports with Verilog's reserved words as names
hw.module @R(in %reg : i1, in %reg_0 : i1, out c : i1) {
  %0 = comb.and %reg, %reg_0 : i1
  hw.output %0 : i1
}
// -----
// an instance whose output is its input, through a register
hw.module private @D(in %clk : !seq.clock, in %d : i1, out q : i1) {
  %r = seq.compreg %d, %clk : i1
  hw.output %r : i1
}
hw.module @P(in %clk : !seq.clock, out o : i1) {
  %u.q = hw.instance "u" @D(clk: %clk: !seq.clock, d: %u.q: i1) -> (q: i1)
  hw.output %u.q : i1
}
// -----
// two instances of a register with enable and reset, one after the other
hw.module private @Reg(in %clk : !seq.clock, in %rst : i1, in %en : i1, in %d : i8, out q : i8) {
  %z = hw.constant 9 : i8
  %r = seq.compreg.ce %d, %clk, %en reset %rst, %z : i8
  hw.output %r : i8
}
hw.module @Two(in %clk : !seq.clock, in %rst : i1, in %en : i1, in %d : i8, out a : i8, out b : i8) {
  %u1.q = hw.instance "u1" @Reg(clk: %clk: !seq.clock, rst: %rst: i1, en: %en: i1, d: %d: i8) -> (q: i8)
  %u2.q = hw.instance "u2" @Reg(clk: %clk: !seq.clock, rst: %rst: i1, en: %en: i1, d: %u1.q: i8) -> (q: i8)
  hw.output %u1.q, %u2.q : i8, i8
}
// -----
// a struct taken apart below where its fields are used
hw.module @E(in %s : !hw.struct<x: i8, y: i8>, out c : i8) {
  %1 = comb.sub %f#1, %f#0 : i8
  %f:2 = hw.struct_explode %s : !hw.struct<x: i8, y: i8>
  hw.output %1 : i8
}
// -----
// 16 bits to an array of two and to a struct
hw.module @B(in %x : i16, out h : i8, out s : !hw.struct<p: i8, q: i8>) {
  %i = hw.constant true
  %0 = hw.bitcast %x : (i16) -> !hw.array<2xi8>
  %1 = hw.array_get %0[%i] : !hw.array<2xi8>, i1
  %2 = hw.bitcast %x : (i16) -> !hw.struct<p: i8, q: i8>
  hw.output %1, %2 : i8, !hw.struct<p: i8, q: i8>
}
// -----
// a register of each of two clocks
hw.module @C(in %c1 : !seq.clock, in %c2 : !seq.clock, in %d : i4, out o : i4) {
  %r = seq.compreg %d, %c1 : i4
  %s = seq.compreg %r, %c2 : i4
  hw.output %s : i4
}
// -----
// two modules, the second private
hw.module @A() {}
hw.module private @B() {}
// -----
// modules that double up to the limit
hw.module @M0(in %a : i1, out b : i1) {
  hw.output %a : i1
}
hw.module @M1(in %a : i1, out b : i1) {
  %u.b = hw.instance "u" @M0(a: %a: i1) -> (b: i1)
  %v.b = hw.instance "v" @M0(a: %u.b: i1) -> (b: i1)
  hw.output %v.b : i1
}
hw.module @M2(in %a : i1, out b : i1) {
  %u.b = hw.instance "u" @M1(a: %a: i1) -> (b: i1)
  %v.b = hw.instance "v" @M1(a: %u.b: i1) -> (b: i1)
  hw.output %v.b : i1
}
hw.module @M3(in %a : i1, out b : i1) {
  %u.b = hw.instance "u" @M2(a: %a: i1) -> (b: i1)
  %v.b = hw.instance "v" @M2(a: %u.b: i1) -> (b: i1)
  hw.output %v.b : i1
}
hw.module @M4(in %a : i1, out b : i1) {
  %u.b = hw.instance "u" @M3(a: %a: i1) -> (b: i1)
  %v.b = hw.instance "v" @M3(a: %u.b: i1) -> (b: i1)
  hw.output %v.b : i1
}
hw.module @M5(in %a : i1, out b : i1) {
  %u.b = hw.instance "u" @M4(a: %a: i1) -> (b: i1)
  %v.b = hw.instance "v" @M4(a: %u.b: i1) -> (b: i1)
  hw.output %v.b : i1
}
hw.module @M6(in %a : i1, out b : i1) {
  %u.b = hw.instance "u" @M5(a: %a: i1) -> (b: i1)
  %v.b = hw.instance "v" @M5(a: %u.b: i1) -> (b: i1)
  hw.output %v.b : i1
}
hw.module @M7(in %a : i1, out b : i1) {
  %u.b = hw.instance "u" @M6(a: %a: i1) -> (b: i1)
  %v.b = hw.instance "v" @M6(a: %u.b: i1) -> (b: i1)
  hw.output %v.b : i1
}
hw.module @M8(in %a : i1, out b : i1) {
  %u.b = hw.instance "u" @M7(a: %a: i1) -> (b: i1)
  %v.b = hw.instance "v" @M7(a: %u.b: i1) -> (b: i1)
  hw.output %v.b : i1
}
hw.module @M9(in %a : i1, out b : i1) {
  %u.b = hw.instance "u" @M8(a: %a: i1) -> (b: i1)
  %v.b = hw.instance "v" @M8(a: %u.b: i1) -> (b: i1)
  hw.output %v.b : i1
}
hw.module @M10(in %a : i1, out b : i1) {
  %u.b = hw.instance "u" @M9(a: %a: i1) -> (b: i1)
  %v.b = hw.instance "v" @M9(a: %u.b: i1) -> (b: i1)
  hw.output %v.b : i1
}
hw.module @M11(in %a : i1, out b : i1) {
  %u.b = hw.instance "u" @M10(a: %a: i1) -> (b: i1)
  %v.b = hw.instance "v" @M10(a: %u.b: i1) -> (b: i1)
  hw.output %v.b : i1
}
hw.module @M12(in %a : i1, out b : i1) {
  %u.b = hw.instance "u" @M11(a: %a: i1) -> (b: i1)
  %v.b = hw.instance "v" @M11(a: %u.b: i1) -> (b: i1)
  hw.output %v.b : i1
}
hw.module @M13(in %a : i1, out b : i1) {
  %u.b = hw.instance "u" @M12(a: %a: i1) -> (b: i1)
  %v.b = hw.instance "v" @M12(a: %u.b: i1) -> (b: i1)
  hw.output %v.b : i1
}
hw.module @M14(in %a : i1, out b : i1) {
  %u.b = hw.instance "u" @M13(a: %a: i1) -> (b: i1)
  %v.b = hw.instance "v" @M13(a: %u.b: i1) -> (b: i1)
  hw.output %v.b : i1
}
hw.module @M15(in %a : i1, out b : i1) {
  %u.b = hw.instance "u" @M14(a: %a: i1) -> (b: i1)
  %v.b = hw.instance "v" @M14(a: %u.b: i1) -> (b: i1)
  hw.output %v.b : i1
}
hw.module @M16(in %a : i1, out b : i1) {
  %u.b = hw.instance "u" @M15(a: %a: i1) -> (b: i1)
  %v.b = hw.instance "v" @M15(a: %u.b: i1) -> (b: i1)
  hw.output %v.b : i1
}
hw.module @M17(in %a : i1, out b : i1) {
  %u.b = hw.instance "u" @M16(a: %a: i1) -> (b: i1)
  %v.b = hw.instance "v" @M16(a: %u.b: i1) -> (b: i1)
  hw.output %v.b : i1
}
hw.module @M18(in %a : i1, out b : i1) {
  %u.b = hw.instance "u" @M17(a: %a: i1) -> (b: i1)
  %v.b = hw.instance "v" @M17(a: %u.b: i1) -> (b: i1)
  hw.output %v.b : i1
}
hw.module @M19(in %a : i1, out b : i1) {
  %u.b = hw.instance "u" @M18(a: %a: i1) -> (b: i1)
  %v.b = hw.instance "v" @M18(a: %u.b: i1) -> (b: i1)
  hw.output %v.b : i1
}
hw.module @M20(in %a : i1, out b : i1) {
  %u.b = hw.instance "u" @M19(a: %a: i1) -> (b: i1)
  %v.b = hw.instance "v" @M19(a: %u.b: i1) -> (b: i1)
  hw.output %v.b : i1
}
hw.module @M21(in %a : i1, out b : i1) {
  %u.b = hw.instance "u" @M20(a: %a: i1) -> (b: i1)
  %v.b = hw.instance "v" @M20(a: %u.b: i1) -> (b: i1)
  hw.output %v.b : i1
}
hw.module @M22(in %a : i1, out b : i1) {
  %u.b = hw.instance "u" @M21(a: %a: i1) -> (b: i1)
  %v.b = hw.instance "v" @M21(a: %u.b: i1) -> (b: i1)
  hw.output %v.b : i1
}
hw.module @M23(in %a : i1, out b : i1) {
  %u.b = hw.instance "u" @M22(a: %a: i1) -> (b: i1)
  %v.b = hw.instance "v" @M22(a: %u.b: i1) -> (b: i1)
  hw.output %v.b : i1
}
hw.module @M24(in %a : i1, out b : i1) {
  %u.b = hw.instance "u" @M23(a: %a: i1) -> (b: i1)
  %v.b = hw.instance "v" @M23(a: %u.b: i1) -> (b: i1)
  hw.output %v.b : i1
}
