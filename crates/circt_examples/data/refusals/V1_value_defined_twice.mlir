// V1: two operations with one result name
hw.module @T(in %a : i8, out o : i8) {
  %0 = comb.add %a, %a : i8
  %0 = comb.xor %a, %a : i8
  hw.output %0 : i8
}
// -----
// V1: an operation with the name of a port
hw.module @T(in %a : i8, out o : i8) {
  %a = comb.add %a, %a : i8
  hw.output %a : i8
}
// -----
// V1: two ports with one value name
hw.module @T(in %a : i8, in %a "b" : i8, out o : i8) {
  hw.output %a : i8
}
// -----
// V1: several results with the name of an earlier result
hw.module @T(in %a : i8, in %s : !hw.struct<x: i8, y: i8>, out o : i8) {
  %0 = comb.add %a, %a : i8
  %0:2 = hw.struct_explode %s : !hw.struct<x: i8, y: i8>
  hw.output %a : i8
}
// -----
// V1: two results of one operation with one name
hw.module @T(in %a : i8, in %s : !hw.struct<x: i8, y: i8>, out o : i8) {
  %x, %x = hw.struct_explode %s : !hw.struct<x: i8, y: i8>
  hw.output %a : i8
}
// -----
// V1: the second of two results has an earlier name
hw.module @T(in %a : i8, out o : i8) {
  %0 = comb.add %a, %a : i8
  %1, %0 = comb.xor %a, %a : i8
  hw.output %0 : i8
}
// -----
// V1: the name of a port, before an operand that is not defined
hw.module @T(in %a : i8, out o : i8) {
  %a = comb.add %z, %a : i8
  hw.output %a : i8
}
// -----
// V1: a register of an earlier name, before its reset is an operation's result
hw.module @T(in %c : !seq.clock, in %d : i1, in %r : i1, out q : i1) {
  %0 = hw.constant true
  %1 = comb.and %d, %r : i1
  %0 = seq.firreg %d clock %c reset async %1, %0 : i1
  hw.output %d : i1
}
// -----
// V1: a register of an earlier name, before the reset value of a later register
hw.module @T(in %c : !seq.clock, in %d : i1, in %r : i1, out q : i1) {
  %0 = hw.constant true
  %0 = seq.firreg %d clock %c reset async %r, %0 : i1
  %s = seq.firreg %d clock %c reset async %r, %d : i1
  hw.output %d : i1
}
