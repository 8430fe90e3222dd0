// V18: an input of another name
hw.module @C(in %d : i8, in %e : i4, out q : i8) {
  hw.output %d : i8
}
hw.module @T(in %d : i8, in %e : i4, out o : i8) {
  %u.q = hw.instance "u" @C(x: %d: i8, e: %e: i4) -> (q: i8)
  hw.output %d : i8
}
// -----
// V18: inputs in another order
hw.module @C(in %d : i8, in %e : i4, out q : i8) {
  hw.output %d : i8
}
hw.module @T(in %d : i8, in %e : i4, out o : i8) {
  %u.q = hw.instance "u" @C(e: %e: i4, d: %d: i8) -> (q: i8)
  hw.output %d : i8
}
// -----
// V18: one input too few
hw.module @C(in %d : i8, in %e : i4, out q : i8) {
  hw.output %d : i8
}
hw.module @T(in %d : i8, in %e : i4, out o : i8) {
  %u.q = hw.instance "u" @C(d: %d: i8) -> (q: i8)
  hw.output %d : i8
}
// -----
// V18: an input of another type
hw.module @C(in %d : i8, in %e : i4, out q : i8) {
  hw.output %d : i8
}
hw.module @T(in %d : i8, in %e : i4, out o : i8) {
  %u.q = hw.instance "u" @C(d: %d: i8, e: %d: i8) -> (q: i8)
  hw.output %d : i8
}
// -----
// V18: a result of another type
hw.module @C(in %d : i8, in %e : i4, out q : i8) {
  hw.output %d : i8
}
hw.module @T(in %d : i8, in %e : i4, out o : i8) {
  %u.q = hw.instance "u" @C(d: %d: i8, e: %e: i4) -> (q: i4)
  hw.output %d : i8
}
// -----
// V18: no result for an output
hw.module @C(in %d : i8, in %e : i4, out q : i8) {
  hw.output %d : i8
}
hw.module @T(in %d : i8, in %e : i4, out o : i8) {
  hw.instance "u" @C(d: %d: i8, e: %e: i4) -> ()
  hw.output %d : i8
}
// -----
// V18: one result too many
hw.module @C(in %d : i8, in %e : i4, out q : i8) {
  hw.output %d : i8
}
hw.module @T(in %d : i8, in %e : i4, out o : i8) {
  %u.q, %u.p = hw.instance "u" @C(d: %d: i8, e: %e: i4) -> (q: i8, p: i8)
  hw.output %d : i8
}
// -----
// V18: an instance of the first of two later modules of one name
hw.module @T(in %d : i8, in %e : i4, out o : i8) {
  %u.q = hw.instance "u" @C(d: %d: i8) -> (q: i8)
  hw.output %d : i8
}
hw.module @C(in %d : i8, in %e : i4, out q : i8) {
  hw.output %d : i8
}
hw.module @C(in %d : i8, out q : i8) {
  hw.output %d : i8
}
// -----
// V18: an instance that has another name for a port hands nothing on
hw.module @User(in %c : !seq.clock, in %x : i1, in %y : i1) {
  %0 = comb.and %x, %y : i1
  hw.instance "u" @Other(c: %c: !seq.clock, a: %0: i1, b: %0: i1) -> ()
}
hw.module private @Low(out o : i1, in %c : !seq.clock, in %a : i1, in %b : i1) {
  %true = hw.constant true
  %s = seq.firreg %a clock %c reset async %b, %true : i1
  hw.output %a : i1
}
hw.module private @Other(in %c : !seq.clock, in %a : i1, in %b : i1) {
  %u.o = hw.instance "u" @Low(c: %c: !seq.clock, a: %b: i1, a: %a: i1) -> (o: i1)
}
