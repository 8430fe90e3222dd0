// V20: hw.output is missing, before the operand of an operation that is not defined
hw.module @T(in %a : i8, out o : i8) {
  %0 = comb.add %a, %z : i8
}
// -----
// V19: an output port has the name of an input, before hw.output is missing
hw.module @T(in %a : i8, out a : i8) {}
// -----
// V1: two input ports have one value name, before the width of the second
hw.module @T(in %a : i8, in %a : i0) {}
// -----
// V4: a port of width 0, before a port name twice and a field name twice
hw.module @T(in %a : i0, in %c "a" : i8, in %b : !hw.struct<x: i8, x: i8>) {}
// -----
// V11: a struct with a field name twice, before its field that is a clock
hw.module @T(in %b : !hw.struct<x: i8, x: !seq.clock>) {}
// -----
// V16: a second module of a name, before its port name twice
hw.module @T() {}
hw.module @T(in %a : i8, in %b "a" : i8) {}
// -----
// V2: an output of a value that is not defined, before a second module of the name
hw.module @T(in %a : i8, out o : i8) {
  hw.output %z : i8
}
hw.module @T() {}
// -----
// V6: an extract past the end, before an output of a value that is not defined
hw.module @T(in %a : i8, out o : i8) {
  %0 = comb.extract %a from 1 : (i8) -> i8
  hw.output %z : i8
}
// -----
// V3: an extract of a value of another type, before its range
hw.module @T(in %a : i8, out o : i8) {
  %0 = comb.extract %a from 1 : (i4) -> i8
  hw.output %a : i8
}
// -----
// V4: a result of 129 bits, before its range and the number of results
hw.module @T(in %a : i8, out o : i8) {
  %0, %1 = comb.extract %a from 9 : (i8) -> i129
  hw.output %a : i8
}
// -----
// V7: a result of 12 bits of copies of 8, before the number of results
hw.module @T(in %a : i8, out o : i8) {
  %0, %1 = comb.replicate %a : (i8) -> i12
  hw.output %a : i8
}
// -----
// V9: a division by a value, before the number of results
hw.module @T(in %a : i8, out o : i8) {
  %0, %1 = comb.divu %a, %a : i8
  hw.output %a : i8
}
// -----
// V4: a constant of width 0, before its value out of range
hw.module @T(in %a : i8, out o : i8) {
  %0 = hw.constant 2 : i0
  hw.output %a : i8
}
// -----
// V3: outputs of the wrong type, before their number
hw.module @T(in %a : i8, in %c : i4, out o : i8) {
  hw.output %c, %a : i8, i8
}
// -----
// V2: outputs of a value that is not defined, before their number
hw.module @T(in %a : i8, out o : i8) {
  hw.output %a, %z : i8, i8
}
// -----
// V13: an output of a clock, before their number
hw.module @T(in %clk : !seq.clock, in %a : i8, out o : i8) {
  hw.output %clk, %a : !seq.clock, i8
}
// -----
// V14: an output with a result, before the number of outputs
hw.module @T(in %a : i8, out o : i8) {
  %0 = hw.output %a, %a : i8, i8
}
// -----
// V14: an instance without one input and its result, before the types of the other
hw.module @C(in %d : i8, in %e : i4, out q : i8) {
  hw.output %d : i8
}
hw.module @T(in %d : i8, in %e : i4, out o : i8) {
  hw.instance "u" @C(d: %e: i4) -> (q: i8)
  hw.output %d : i8
}
// -----
// V3: an input of an instance of the wrong type, before the width of its result
hw.module @C(in %d : i8, in %e : i4, out q : i8) {
  hw.output %d : i8
}
hw.module @T(in %d : i8, in %e : i4, out o : i8) {
  %u.q = hw.instance "u" @C(d: %e: i8) -> (q: i0)
  hw.output %d : i8
}
// -----
// V12: a bitcast to a type of another width, before its element that is a clock
hw.module @T(in %a : i8, out o : i8) {
  %0 = hw.bitcast %a : (i8) -> !hw.array<2x!seq.clock>
  hw.output %a : i8
}
// -----
// V5: a constant out of range, after a cycle of values
hw.module @T(in %a : i8, out o : i8) {
  %0 = comb.and %0, %a : i8
  %1 = hw.constant 256 : i8
  hw.output %0 : i8
}
// -----
// V5: a constant out of range, after a module that has an instance of itself
hw.module @A() {
  hw.instance "u" @A() -> ()
}
hw.module @B(out o : i8) {
  %0 = hw.constant 256 : i8
  hw.output %0 : i8
}
// -----
// S3: an unknown operation, after a second module of a name
hw.module @A() {}
hw.module @A() {
  %0 = comb.nand %a, %a : i8
}
// -----
// V3: a xor of a value of another type, in the second module of a list
module {
  hw.module @A(in %a : i8) {
    %0 = comb.xor %a, %a : i8
  }
  hw.module private @B(in %a : i8) {
    %0 = comb.xor %a, %a : i4
  }
}
