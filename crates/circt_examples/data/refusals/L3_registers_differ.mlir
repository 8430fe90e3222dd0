// L3: a register, and none
hw.module @p(in %c : !seq.clock, in %x : i8, out o : i8) {
  %r = seq.compreg %x, %c : i8
  hw.output %r : i8
}
hw.module @q(in %c : !seq.clock, in %x : i8, out o : i8) {
  hw.output %x : i8
}
// -----
// L3: none, and a register
hw.module @p(in %c : !seq.clock, in %x : i8, out o : i8) {
  hw.output %x : i8
}
hw.module @q(in %c : !seq.clock, in %x : i8, out o : i8) {
  %r = seq.compreg %x, %c : i8
  hw.output %r : i8
}
// -----
// L3: registers of other widths
hw.module @p(in %c : !seq.clock, in %x : i8, out o : i8) {
  %r = seq.compreg %x, %c : i8
  hw.output %x : i8
}
hw.module @q(in %c : !seq.clock, in %x : i8, out o : i8) {
  %0 = comb.extract %x from 0 : (i8) -> i4
  %r = seq.compreg %0, %c : i4
  hw.output %x : i8
}
// -----
// L3: one in an instance, and two
hw.module private @Held(in %c : !seq.clock, in %x : i8, out o : i8) {
  %r = seq.compreg %x, %c : i8
  hw.output %r : i8
}
hw.module @p(in %c : !seq.clock, in %x : i8, out o : i8) {
  %u.o = hw.instance "u" @Held(c: %c: !seq.clock, x: %x: i8) -> (o: i8)
  hw.output %u.o : i8
}
hw.module @q(in %c : !seq.clock, in %x : i8, out o : i8) {
  %u.o = hw.instance "u" @Held(c: %c: !seq.clock, x: %x: i8) -> (o: i8)
  %v.o = hw.instance "v" @Held(c: %c: !seq.clock, x: %u.o: i8) -> (o: i8)
  hw.output %v.o : i8
}
