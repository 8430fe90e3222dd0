// a concat of the two halves of 8 bits, against the word
hw.module @p(in %a : i8, out o : i8) {
  %0 = comb.extract %a from 4 : (i8) -> i4
  %1 = comb.extract %a from 0 : (i8) -> i4
  %2 = comb.concat %0, %1 : i4, i4
  hw.output %2 : i8
}
hw.module @q(in %a : i8, out o : i8) {
  hw.output %a : i8
}
// -----
// a concat of the two halves exchanged, against the word: the first operand has the highest bits
hw.module @p(in %a : i8, out o : i8) {
  %0 = comb.extract %a from 4 : (i8) -> i4
  %1 = comb.extract %a from 0 : (i8) -> i4
  %2 = comb.concat %1, %0 : i4, i4
  hw.output %2 : i8
}
hw.module @q(in %a : i8, out o : i8) {
  hw.output %a : i8
}
// -----
// three copies of 3 bits, against a concat
hw.module @p(in %a : i3, out o : i9) {
  %0 = comb.replicate %a : (i3) -> i9
  hw.output %0 : i9
}
hw.module @q(in %a : i3, out o : i9) {
  %0 = comb.concat %a, %a, %a : i3, i3, i3
  hw.output %0 : i9
}
// -----
// an extract of a wire, against a shift and an extract from 0
hw.module @p(in %a : i8, out o : i3) {
  %w = hw.wire %a : i8
  %0 = comb.extract %w from 2 : (i8) -> i3
  hw.output %0 : i3
}
hw.module @q(in %a : i8, out o : i3) {
  %k = hw.constant 2 : i8
  %0 = comb.shru %a, %k : i8
  %1 = comb.extract %0 from 0 : (i8) -> i3
  hw.output %1 : i3
}
// -----
// modules with an input that is a clock
hw.module @p(in %clk : !seq.clock, in %a : i8, out o : i8) {
  hw.output %a : i8
}
hw.module @q(in %clk : !seq.clock, in %a : i8, out o : i8) {
  %0 = comb.and %a, %a : i8
  hw.output %0 : i8
}
