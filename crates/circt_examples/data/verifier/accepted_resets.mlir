// a reset port is joined to an input port, and its module stands later
hw.module @T(in %c : !seq.clock, in %d : i1, in %r : i1, out q : i1) {
  %u.q = hw.instance "u" @C(c: %c: !seq.clock, d: %d: i1, r: %r: i1) -> (q: i1)
  hw.output %d : i1
}
hw.module private @C(in %c : !seq.clock, in %d : i1, in %r : i1, out q : i1) {
  %true = hw.constant true
  %s = seq.firreg %d clock %c reset async %r, %true : i1
  hw.output %d : i1
}
// -----
// another port is joined to a result
hw.module @T(in %c : !seq.clock, in %d : i1, in %r : i1, out q : i1) {
  %0 = comb.and %d, %r : i1
  %u.q = hw.instance "u" @C(c: %c: !seq.clock, d: %0: i1, r: %r: i1) -> (q: i1)
  hw.output %d : i1
}
hw.module private @C(in %c : !seq.clock, in %d : i1, in %r : i1, out q : i1) {
  %true = hw.constant true
  %s = seq.firreg %d clock %c reset async %r, %true : i1
  hw.output %d : i1
}
// -----
// the other port of the module between is the reset port
hw.module private @C(in %c : !seq.clock, in %d : i1, in %r : i1, out q : i1) {
  %true = hw.constant true
  %s = seq.firreg %d clock %c reset async %r, %true : i1
  hw.output %d : i1
}
hw.module private @M(in %c : !seq.clock, in %d : i1, in %r : i1, out q : i1) {
  %u.q = hw.instance "u" @C(c: %c: !seq.clock, d: %r: i1, r: %d: i1) -> (q: i1)
  hw.output %d : i1
}
hw.module @T(in %c : !seq.clock, in %d : i1, in %r : i1, out q : i1) {
  %0 = comb.and %d, %r : i1
  %u.q = hw.instance "u" @M(c: %c: !seq.clock, d: %d: i1, r: %0: i1) -> (q: i1)
  hw.output %d : i1
}
