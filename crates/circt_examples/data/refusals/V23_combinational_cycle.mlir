// V23: an and is its own operand
hw.module @T(in %a : i8, out o : i8) {
  %0 = comb.and %0, %a : i8
  hw.output %0 : i8
}
// -----
// V23: an and and an or are each other's operands
hw.module @T(in %a : i8, out o : i8) {
  %0 = comb.and %1, %a : i8
  %1 = comb.or %0, %a : i8
  hw.output %0 : i8
}
// -----
// V23: the cycle is not of the first operation, which only reads it
hw.module @T(in %a : i8, out o : i8) {
  %0 = comb.xor %1, %a : i8
  %1 = comb.and %1, %a : i8
  hw.output %0 : i8
}
// -----
// V23: a wire of itself
hw.module @T(in %a : i8, out o : i8) {
  %w = hw.wire %w : i8
  hw.output %a : i8
}
// -----
// V23: through an instance of an earlier private module with a wire
hw.module private @D(in %clk : !seq.clock, in %d : i1, out q : i1) {
  %r = hw.wire %d : i1
  hw.output %r : i1
}
hw.module @P(in %clk : !seq.clock, out o : i1) {
  %u.q = hw.instance "u" @D(clk: %clk: !seq.clock, d: %u.q: i1) -> (q: i1)
  hw.output %u.q : i1
}
// -----
// V23: through an instance of a later module whose output is its input
hw.module @P(out o : i1) {
  %u.q = hw.instance "u" @D(d: %u.q: i1) -> (q: i1)
  hw.output %u.q : i1
}
hw.module @D(in %d : i1, out q : i1) {
  hw.output %d : i1
}
// -----
// V23: an xor before the instance that it goes through
hw.module @P(out o : i1) {
  %0 = comb.xor %u.q, %u.q : i1
  %u.q = hw.instance "u" @D(d: %0: i1) -> (q: i1)
  hw.output %0 : i1
}
hw.module @D(in %d : i1, out q : i1) {
  %k = hw.constant true
  %0 = comb.and %d, %k : i1
  hw.output %0 : i1
}
// -----
// V23: the first of two cycles, in a private module after a module without one
hw.module @E(in %a : i1, out o : i1) {
  hw.output %a : i1
}
hw.module private @D(in %d : i1) {
  %0 = comb.and %0, %d : i1
}
hw.module @F(in %a : i1) {
  %0 = comb.or %0, %a : i1
}
// -----
// V23: a field of the struct that it is a part of
hw.module @T(in %a : i8, out o : i8) {
  %0 = hw.struct_create (%a, %1) : !hw.struct<x: i8, y: i8>
  %1 = hw.struct_extract %0["x"] : !hw.struct<x: i8, y: i8>
  hw.output %a : i8
}
// -----
// V23: an array_inject is its own array
hw.module @T(in %i : i1, in %a : i8) {
  %0 = hw.array_inject %0[%i], %a : !hw.array<2xi8>, i1
}
// -----
// V23: between two operations, beside a cycle that a register breaks
hw.module @T(in %clk : !seq.clock, in %a : i1) {
  %r = seq.compreg %0, %clk : i1
  %0 = comb.xor %r, %1 : i1
  %1 = comb.or %2, %a : i1
  %2 = comb.and %1, %r : i1
}
