// V3: a sum with an operand of four bits
hw.module @T(in %a : i8, in %c : i4, out o : i8) {
  %0 = comb.add %a, %c : i8
  hw.output %0 : i8
}
// -----
// V3: an output of four bits as eight
hw.module @T(in %a : i8, in %c : i4, out o : i8) {
  hw.output %c : i8
}
// -----
// V3: a condition of eight bits
hw.module @T(in %a : i8, out o : i8) {
  %0 = comb.mux %a, %a, %a : i8
  hw.output %0 : i8
}
// -----
// V3: a sum of structs
hw.module @T(in %a : i8, in %s : !hw.struct<x: i8, y: i8>, out o : i8) {
  %0 = comb.add %s, %s : !hw.struct<x: i8, y: i8>
  hw.output %a : i8
}
// -----
// V3: a sum of clocks
hw.module @T(in %clk : !seq.clock, in %a : i8, out o : i8) {
  %0 = comb.add %clk, %clk : !seq.clock
  hw.output %a : i8
}
// -----
// V3: a constant of a clock's type
hw.module @T(in %a : i8, out o : i8) {
  %0 = hw.constant 1 : !seq.clock
  hw.output %a : i8
}
// -----
// V3: an aggregate_constant of a clock's type
hw.module @T(in %a : i8, out o : i8) {
  %0 = hw.aggregate_constant [1 : i8] : !seq.clock
  hw.output %a : i8
}
// -----
// V3: an operand that is a later concat of 256 bits
hw.module @T(in %a : i8, in %w : i128, out o : i8) {
  %1 = comb.xor %0, %a : i8
  %0 = comb.concat %w, %w : i128, i128
  hw.output %1 : i8
}
// -----
// V3: a sum of eight bits as a width of 0
hw.module @T(in %a : i8, out o : i8) {
  %0 = comb.add %a, %a : i0
  hw.output %a : i8
}
// -----
// V3: an operand that is a later constant of four bits
hw.module @T(in %a : i8, out o : i8) {
  %0 = comb.xor %1, %a : i8
  %1 = hw.constant 1 : i4
  hw.output %0 : i8
}
// -----
// V3: a struct as the index of array_slice
hw.module @T(in %r : !hw.array<4xi8>, in %s : !hw.struct<x: i2>) {
  %0 = hw.array_slice %r[%s] : (!hw.array<4xi8>) -> !hw.array<2xi8>
}
// -----
// V3: a struct as the index of array_get
hw.module @T(in %r : !hw.array<4xi8>, in %s : !hw.struct<x: i2>) {
  %0 = hw.array_get %r[%s] : !hw.array<4xi8>, !hw.struct<x: i2>
}
// -----
// V3: an index of two bits as three
hw.module @T(in %r : !hw.array<4xi8>, in %i : i2, in %j : i3, out o : i8) {
  %0 = hw.array_get %r[%i] : !hw.array<4xi8>, i3
  hw.output %0 : i8
}
// -----
// V3: a number of four bits in an array of eight
hw.module @T(in %a : i8, out o : i8) {
  %0 = hw.aggregate_constant [1 : i4, 2 : i8] : !hw.array<2xi8>
  hw.output %a : i8
}
// -----
// V3: a list in an array of integers
hw.module @T(in %a : i8, out o : i8) {
  %0 = hw.aggregate_constant [[1 : i8], 2 : i8] : !hw.array<2xi8>
  hw.output %a : i8
}
// -----
// V3: a third number of four bits in an array of two of eight
hw.module @T(in %a : i8, out o : i8) {
  %0 = hw.aggregate_constant [1 : i8, 2 : i8, 3 : i4] : !hw.array<2xi8>
  hw.output %a : i8
}
// -----
// V3: the first of two values for one field is of four bits
hw.module @T(in %a : i8, in %c : i4, out o : i8) {
  %0 = hw.struct_create (%c, %a) : !hw.struct<x: i8>
  hw.output %a : i8
}
// -----
// V3: an integer as a clock of seq.compreg
hw.module @T(in %a : i8, out o : i8) {
  %r = seq.compreg %a, %a : i8
  hw.output %a : i8
}
// -----
// V3: a reset of eight bits
hw.module @T(in %clk : !seq.clock, in %a : i8, out o : i8) {
  %r = seq.compreg %a, %clk reset %a, %a : i8
  hw.output %a : i8
}
// -----
// V3: an enable of eight bits
hw.module @T(in %clk : !seq.clock, in %a : i8, out o : i8) {
  %r = seq.compreg.ce %a, %clk, %a : i8
  hw.output %a : i8
}
// -----
// V3: an integer as a clock of seq.firreg
hw.module @T(in %clk : !seq.clock, in %a : i8, out o : i8) {
  %r = seq.firreg %a clock %a : i8
  hw.output %a : i8
}
// -----
// V3: an element of an integer
hw.module @T(in %a : i8, in %i : i1, out o : i8) {
  %0 = hw.array_get %a[%i] : i8, i1
  hw.output %a : i8
}
// -----
// V3: a field of an array
hw.module @T(in %r : !hw.array<4xi8>, in %i : i2, in %j : i3, out o : i8) {
  %0 = hw.struct_extract %r["x"] : !hw.array<4xi8>
  hw.output %0 : i8
}
// -----
// V3: a divisor of four bits
hw.module @T(in %a : i8, out o : i8) {
  %k = hw.constant 1 : i4
  %0 = comb.divu %a, %k : i8
  hw.output %0 : i8
}
// -----
// V3: a user of an element of an integer, which has no type
hw.module @T(in %a : i8, in %b : i8, out o : i8) {
  %0 = comb.xor %1, %a : i8
  %1 = hw.array_get %a[%b] : i8, i8
  hw.output %0 : i8
}
// -----
// V3: a user of arrays of other elements, which have no type together
hw.module @T(in %a : i8, in %b : i8, out o : i8) {
  %0 = comb.xor %1, %a : i8
  %1 = hw.array_concat %a, %b : !hw.array<1xi8>, !hw.array<1xi4>
  hw.output %0 : i8
}
// -----
// V3: a user of arrays of equal elements
hw.module @T(in %a : i8, in %b : i8, out o : i8) {
  %0 = comb.xor %1, %a : i8
  %1 = hw.array_concat %a, %b : !hw.array<1xi8>, !hw.array<1xi8>
  hw.output %0 : i8
}
// -----
// V3: a user of 16 bits
hw.module @T(in %a : i8, in %b : i8, out o : i8) {
  %0 = comb.xor %1, %a : i8
  %1 = comb.concat %a, %b : i8, i8
  hw.output %0 : i8
}
// -----
// V3: a sum with an operand of four bits for eight
hw.module @T(in %a : i8, in %b : i4) {
  %0 = comb.add %a, %b : i8
}
// -----
// V3: a condition of eight bits, before its sides
hw.module @T(in %a : i8) {
  %0 = comb.mux %a, %a, %a : i8
}
// -----
// V3: an xor of eight bits as a width of 0
hw.module @T(in %a : i8) {
  %0 = comb.xor %a : i0
}
// -----
// V3: a clock for a field of a byte
hw.module @T(in %a : i8, in %s : i1, in %clk : !seq.clock) {
  %0 = hw.struct_create (%a, %clk) : !hw.struct<x: i8, y: i8>
}
// -----
// V3: a concat of a clock, where integers are asked for
hw.module @T(in %a : i8, in %s : i1, in %clk : !seq.clock) {
  %0 = comb.concat %clk : !seq.clock
}
// -----
// V3: an output of a clock as one bit
hw.module @T(in %a : i8, in %s : i1, in %clk : !seq.clock) {
  hw.output %clk : i1
}
// -----
// V3: a reset of eight bits, before its value is no constant
hw.module @T(in %clk : !seq.clock, in %rst : i1, in %d : i8, out q : i8) {
  %r = seq.firreg %d clock %clk reset async %d, %d : i8
  hw.output %r : i8
}
// -----
// V3: a sum of operands of two widths, before a later register's reset value
hw.module @T(in %clk : !seq.clock, in %rst : i1, in %d : i8, out q : i8) {
  %0 = comb.add %d, %rst : i8
  %r = seq.firreg %d clock %clk reset async %rst, %d : i8
  hw.output %r : i8
}
// -----
// V3: a reset port of eight bits
hw.module @User(in %c : !seq.clock, in %x : i8, in %y : i8) {
  %0 = comb.and %x, %y : i8
  hw.instance "u" @Wide(c: %c: !seq.clock, a: %0: i8) -> ()
}
hw.module private @Wide(in %c : !seq.clock, in %a : i8) {
  %true = hw.constant true
  %s = seq.firreg %true clock %c reset async %a, %true : i1
}
// -----
// V3: a port of eight bits is handed on to a reset, before the instance that joins it
hw.module @User(in %c : !seq.clock, in %x : i8, in %y : i1) {
  %0 = comb.and %x, %x : i8
  %1 = comb.and %y, %y : i1
  hw.instance "u" @Wide(c: %c: !seq.clock, a: %0: i8, b: %1: i1) -> ()
}
hw.module private @Low(out o : i1, in %c : !seq.clock, in %a : i1, in %b : i1) {
  %true = hw.constant true
  %s = seq.firreg %a clock %c reset async %b, %true : i1
  hw.output %a : i1
}
hw.module private @Wide(in %c : !seq.clock, in %a : i8, in %b : i1) {
  %u.o = hw.instance "u" @Low(c: %c: !seq.clock, a: %b: i1, b: %a: i1) -> (o: i1)
}
