// hw.wire of a port
hw.module @T(in %a : i8, in %b : i8, in %c : i8, in %s : i1, out o : i8) {
  %w = hw.wire %a : i8
  %o = comb.add %w, %b : i8
  hw.output %o : i8
}
// -----
// hw.wire without a name
hw.module @T(in %a : i8, in %b : i8, in %c : i8, in %s : i1, out o : i8) {
  %0 = hw.wire %a : i8
  %o = comb.add %0, %b : i8
  hw.output %o : i8
}
// -----
// hw.wire with another name
hw.module @T(in %a : i8, in %b : i8, in %c : i8, in %s : i1, out o : i8) {
  %w = hw.wire %a {name = "x"} : i8
  %o = comb.add %w, %b : i8
  hw.output %o : i8
}
// -----
// hw.wire with an empty name, which is none
hw.module @T(in %a : i8, in %b : i8, in %c : i8, in %s : i1, out o : i8) {
  %w = hw.wire %a {name = ""} : i8
  %o = comb.add %w, %b : i8
  hw.output %o : i8
}
// -----
// hw.wire with a hint, which is no name of a wire
hw.module @T(in %a : i8, in %b : i8, in %c : i8, in %s : i1, out o : i8) {
  %0 = hw.wire %a {sv.namehint = "x"} : i8
  %o = comb.add %0, %b : i8
  hw.output %o : i8
}
// -----
// hw.wire with the name of an output
hw.module @T(in %a : i8, in %b : i8, in %c : i8, in %s : i1, out o : i8) {
  %o = hw.wire %a : i8
  hw.output %o : i8
}
// -----
// hw.wire of one bit with a name, which is an output
hw.module @T(in %a : i8, in %b : i8, in %c : i8, in %s : i1, out o : i1) {
  %o = hw.wire %s {name = "w"} : i1
  hw.output %o : i1
}
// -----
// hw.wire of an arithmetic shift
hw.module @T(in %a : i8, in %b : i8, in %c : i8, in %s : i1, out o : i8) {
  %0 = comb.shrs %a, %b : i8
  %w = hw.wire %0 : i8
  %o = comb.add %w, %c : i8
  hw.output %o : i8
}
// -----
// a sum with two uses in one product has a wire
hw.module @T(in %a : i8, in %b : i8, in %c : i8, in %s : i1, out o : i8) {
  %0 = comb.add %a, %b : i8
  %o = comb.mul %0, %0 : i8
  hw.output %o : i8
}
// -----
// an arithmetic shift with two uses in one sum has a wire
hw.module @T(in %a : i8, in %b : i8, in %c : i8, in %s : i1, out o : i8) {
  %0 = comb.shrs %a, %b : i8
  %o = comb.add %0, %0 : i8
  hw.output %o : i8
}
// -----
// a sum and a difference with two uses each have wires
hw.module @T(in %a : i8, in %b : i8, in %c : i8, in %s : i1, out o : i8) {
  %0 = comb.add %a, %b : i8
  %1 = comb.sub %0, %0 : i8
  %o = comb.mul %1, %1 : i8
  hw.output %o : i8
}
// -----
// a sum of which a part is taken has a wire
hw.module @T(in %a : i8, in %b : i8, in %c : i8, in %s : i1, out o : i4) {
  %0 = comb.add %a, %b : i8
  %o = comb.extract %0 from 0 : (i8) -> i4
  hw.output %o : i4
}
// -----
// a constant of which a part is taken has a wire
hw.module @T(in %a : i8, in %b : i8, in %c : i8, in %s : i1, out o : i4) {
  %k = hw.constant 5 : i8
  %o = comb.extract %k from 0 : (i8) -> i4
  hw.output %o : i4
}
// -----
// a constant of which a part is taken has a wire of its hint's name
hw.module @T(in %a : i8, in %b : i8, in %c : i8, in %s : i1, out o : i4) {
  %k = hw.constant 5 {sv.namehint = "five"} : i8
  %o = comb.extract %k from 0 : (i8) -> i4
  hw.output %o : i4
}
// -----
// a constant with a hint, which is an output, is a literal
hw.module @T(in %a : i8, in %b : i8, in %c : i8, in %s : i1, out o : i8) {
  %o = hw.constant 5 {sv.namehint = "five"} : i8
  hw.output %o : i8
}
// -----
// a constant of which all bits are taken is a literal
hw.module @T(in %a : i8, in %b : i8, in %c : i8, in %s : i1, out o : i8) {
  %k = hw.constant 5 : i8
  %o = comb.extract %k from 0 : (i8) -> i8
  hw.output %o : i8
}
// -----
// a constant with a wire is a literal where it divides
hw.module @T(in %a : i8, in %b : i8, in %c : i8, in %s : i1, out o : i8) {
  %k = hw.constant 5 : i8
  %0 = comb.extract %k from 0 : (i8) -> i4
  %o = comb.divu %a, %k : i8
  hw.output %o : i8
}
// -----
// a bitcast of a port of which a part is taken has a wire
hw.module @T(in %a : i8, in %b : i8, in %c : i8, in %s : i1, out o : i4) {
  %0 = hw.bitcast %a : (i8) -> i8
  %o = comb.extract %0 from 0 : (i8) -> i4
  hw.output %o : i4
}
// -----
// an unused sum is not printed
hw.module @T(in %a : i8, in %b : i8, in %c : i8, in %s : i1, out o : i8) {
  %0 = comb.add %a, %b : i8
  %o = comb.sub %a, %b : i8
  hw.output %o : i8
}
// -----
// a sum with an unused second use has a wire
hw.module @T(in %a : i8, in %b : i8, in %c : i8, in %s : i1, out o : i8) {
  %o = comb.add %a, %b : i8
  %0 = comb.sub %o, %b : i8
  hw.output %o : i8
}
// -----
// a sum with two unused uses has a wire
hw.module @T(in %a : i8, in %b : i8, in %c : i8, in %s : i1, out o : i8) {
  %0 = comb.add %a, %b : i8
  %1 = comb.sub %0, %b : i8
  %2 = comb.sub %0, %c : i8
  %o = comb.xor %a, %b : i8
  hw.output %o : i8
}
// -----
// a sum of which a part is taken that nothing uses has a wire
hw.module @T(in %a : i8, in %b : i8, in %c : i8, in %s : i1, out o : i8) {
  %0 = comb.add %a, %b : i8
  %1 = comb.extract %0 from 0 : (i8) -> i4
  %o = comb.xor %a, %b : i8
  hw.output %o : i8
}
// -----
// a sum with a hint has a wire of that name
hw.module @T(in %a : i8, in %b : i8, in %c : i8, in %s : i1, out o : i8) {
  %0 = comb.add %a, %b {sv.namehint = "sum"} : i8
  %o = comb.sub %0, %c : i8
  hw.output %o : i8
}
// -----
// an unused sum with a hint has a wire of that name
hw.module @T(in %a : i8, in %b : i8, in %c : i8, in %s : i1, out o : i8) {
  %0 = comb.add %a, %b {sv.namehint = "sum"} : i8
  %o = comb.sub %a, %c : i8
  hw.output %o : i8
}
// -----
// a sum with an empty hint has no wire
hw.module @T(in %a : i8, in %b : i8, in %c : i8, in %s : i1, out o : i8) {
  %0 = comb.add %a, %b {sv.namehint = ""} : i8
  %o = comb.sub %0, %c : i8
  hw.output %o : i8
}
// -----
// hints that are a port's name, a reserved word and an illegal name
hw.module @T(in %a : i8, in %b : i8, in %c : i8, in %s : i1, out o : i8) {
  %0 = comb.add %a, %b {sv.namehint = "a"} : i8
  %1 = comb.add %b, %c {sv.namehint = "wire"} : i8
  %2 = comb.add %a, %c {sv.namehint = "1 x"} : i8
  %o = comb.or %0, %1, %2 : i8
  hw.output %o : i8
}
// -----
// a sum with two uses that stands after them has a wire
hw.module @T(in %a : i8, in %b : i8, in %c : i8, in %s : i1, out o : i8) {
  %o = comb.mul %0, %0 : i8
  %0 = comb.add %a, %b : i8
  hw.output %o : i8
}
