// V2: an operand of a sum that is not defined
hw.module @T(in %a : i8, out o : i8) {
  %0 = comb.add %a, %z : i8
  hw.output %0 : i8
}
// -----
// V2: result number 2 of two
hw.module @T(in %a : i8, in %s : !hw.struct<x: i8, y: i8>, out o : i8) {
  %0:2 = hw.struct_explode %s : !hw.struct<x: i8, y: i8>
  hw.output %0#2 : i8
}
// -----
// V2: result number 1 of a port
hw.module @T(in %a : i8, out o : i8) {
  hw.output %a#1 : i8
}
// -----
// V2: an input of an instance of no module that is not defined
hw.module @T(in %a : i8, out o : i8) {
  %u.q = hw.instance "u" @C(d: %z: i8) -> (q: i8)
  hw.output %a : i8
}
// -----
// V2: an operand that is not defined, before one of another type
hw.module @T(in %a : i8, in %c : i4, out o : i8) {
  %0 = comb.add %z, %c : i8
  hw.output %0 : i8
}
// -----
// V2: a reset that is not defined
hw.module @T(in %c : !seq.clock, in %d : i1, in %r : i1, out q : i1) {
  %0 = hw.constant true
  %s = seq.firreg %d clock %c reset async %q, %0 : i1
  hw.output %d : i1
}
