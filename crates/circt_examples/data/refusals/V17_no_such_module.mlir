// V17: an instance of no module
hw.module @T(in %d : i8, in %e : i4, out o : i8) {
  %u.q = hw.instance "u" @Nope(d: %d: i8, e: %e: i4) -> (q: i8)
  hw.output %d : i8
}
// -----
// V17: an instance of no module hands nothing on
hw.module @User(in %c : !seq.clock, in %x : i1, in %y : i1) {
  %0 = comb.and %x, %y : i1
  hw.instance "u" @Middle(c: %c: !seq.clock, a: %0: i1, b: %0: i1) -> ()
  hw.instance "v" @Top(c: %c: !seq.clock, a: %0: i1, b: %0: i1) -> ()
}
hw.module private @Middle(in %c : !seq.clock, in %a : i1, in %b : i1) {
  %u.o = hw.instance "u" @Low(c: %c: !seq.clock, a: %b: i1, b: %a: i1) -> (o: i1)
}
hw.module private @Top(in %c : !seq.clock, in %a : i1, in %b : i1) {
  hw.instance "u" @Middle(c: %c: !seq.clock, a: %b: i1, b: %a: i1) -> ()
}
