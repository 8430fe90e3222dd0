// slt of 8 bits, against ult of words with their top bits turned
hw.module @p(in %a : i8, in %b : i8, out o : i1) {
  %0 = comb.icmp slt %a, %b : i8
  hw.output %0 : i1
}
hw.module @q(in %a : i8, in %b : i8, out o : i1) {
  %k = hw.constant -128 : i8
  %c = comb.xor %a, %k : i8
  %d = comb.xor %b, %k : i8
  %0 = comb.icmp ult %c, %d : i8
  hw.output %0 : i1
}
// -----
// slt of 8 bits, against ult
hw.module @p(in %a : i8, in %b : i8, out o : i1) {
  %0 = comb.icmp slt %a, %b : i8
  hw.output %0 : i1
}
hw.module @q(in %a : i8, in %b : i8, out o : i1) {
  %0 = comb.icmp ult %a, %b : i8
  hw.output %0 : i1
}
// -----
// sle and ule of 8 bits, against sge and uge of exchanged operands
hw.module @p(in %a : i8, in %b : i8, out o : i1, out p : i1) {
  %0 = comb.icmp sle %a, %b : i8
  %1 = comb.icmp ule %a, %b : i8
  hw.output %0, %1 : i1, i1
}
hw.module @q(in %a : i8, in %b : i8, out o : i1, out p : i1) {
  %0 = comb.icmp sge %b, %a : i8
  %1 = comb.icmp uge %b, %a : i8
  hw.output %0, %1 : i1, i1
}
// -----
// sgt and ugt of 3 bits, against the negations of sle and ule
hw.module @p(in %a : i3, in %b : i3, out o : i1, out p : i1) {
  %0 = comb.icmp sgt %a, %b : i3
  %1 = comb.icmp ugt %a, %b : i3
  hw.output %0, %1 : i1, i1
}
hw.module @q(in %a : i3, in %b : i3, out o : i1, out p : i1) {
  %true = hw.constant true
  %0 = comb.icmp sle %a, %b : i3
  %1 = comb.icmp ule %a, %b : i3
  %2 = comb.xor %0, %true : i1
  %3 = comb.xor %1, %true : i1
  hw.output %2, %3 : i1, i1
}
// -----
// ule of 8 bits, against ult
hw.module @p(in %a : i8, in %b : i8, out o : i1) {
  %0 = comb.icmp ule %a, %b : i8
  hw.output %0 : i1
}
hw.module @q(in %a : i8, in %b : i8, out o : i1) {
  %0 = comb.icmp ult %a, %b : i8
  hw.output %0 : i1
}
// -----
// slt of one bit, against ugt: 1 is -1
hw.module @p(in %a : i1, in %b : i1, out o : i1) {
  %0 = comb.icmp slt %a, %b : i1
  hw.output %0 : i1
}
hw.module @q(in %a : i1, in %b : i1, out o : i1) {
  %0 = comb.icmp ugt %a, %b : i1
  hw.output %0 : i1
}
// -----
// eq and ne of 8 bits, against comparisons of a difference with 0
hw.module @p(in %a : i8, in %b : i8, out o : i1, out p : i1) {
  %0 = comb.icmp eq %a, %b : i8
  %1 = comb.icmp ne %a, %b : i8
  hw.output %0, %1 : i1, i1
}
hw.module @q(in %a : i8, in %b : i8, out o : i1, out p : i1) {
  %zero = hw.constant 0 : i8
  %0 = comb.sub %a, %b : i8
  %1 = comb.icmp eq %0, %zero : i8
  %2 = comb.icmp ugt %0, %zero : i8
  hw.output %1, %2 : i1, i1
}
// -----
// ceq, cne, weq and wne of 3 bits, against eq and ne
hw.module @p(in %a : i3, in %b : i3, out o : i1, out p : i1, out q : i1, out r : i1) {
  %0 = comb.icmp ceq %a, %b : i3
  %1 = comb.icmp cne %a, %b : i3
  %2 = comb.icmp weq %a, %b : i3
  %3 = comb.icmp wne %a, %b : i3
  hw.output %0, %1, %2, %3 : i1, i1, i1, i1
}
hw.module @q(in %a : i3, in %b : i3, out o : i1, out p : i1, out q : i1, out r : i1) {
  %0 = comb.icmp eq %a, %b : i3
  %1 = comb.icmp ne %a, %b : i3
  hw.output %0, %1, %0, %1 : i1, i1, i1, i1
}
// -----
// parity of 3 bits, against an xor of the bits
hw.module @p(in %a : i3, out o : i1) {
  %0 = comb.parity %a : i3
  hw.output %0 : i1
}
hw.module @q(in %a : i3, out o : i1) {
  %0 = comb.extract %a from 0 : (i3) -> i1
  %1 = comb.extract %a from 1 : (i3) -> i1
  %2 = comb.extract %a from 2 : (i3) -> i1
  %3 = comb.xor %0, %1, %2 : i1
  hw.output %3 : i1
}
// -----
// parity of 8 bits, against its negation
hw.module @p(in %a : i8, out o : i1) {
  %0 = comb.parity %a : i8
  hw.output %0 : i1
}
hw.module @q(in %a : i8, out o : i1) {
  %true = hw.constant true
  %0 = comb.parity %a : i8
  %1 = comb.xor %0, %true : i1
  hw.output %1 : i1
}
// -----
// mux of 8 bits, against masks of the condition
hw.module @p(in %c : i1, in %a : i8, in %b : i8, out o : i8) {
  %0 = comb.mux %c, %a, %b : i8
  hw.output %0 : i8
}
hw.module @q(in %c : i1, in %a : i8, in %b : i8, out o : i8) {
  %ones = hw.constant -1 : i8
  %m = comb.replicate %c : (i1) -> i8
  %n = comb.xor %m, %ones : i8
  %0 = comb.and %a, %m : i8
  %1 = comb.and %b, %n : i8
  %2 = comb.or %0, %1 : i8
  hw.output %2 : i8
}
// -----
// mux of 8 bits, against one of exchanged sides
hw.module @p(in %c : i1, in %a : i8, in %b : i8, out o : i8) {
  %0 = comb.mux %c, %a, %b : i8
  hw.output %0 : i8
}
hw.module @q(in %c : i1, in %a : i8, in %b : i8, out o : i8) {
  %0 = comb.mux %c, %b, %a : i8
  hw.output %0 : i8
}
// -----
// xor of 8 bits, against an and of two ors
hw.module @p(in %a : i8, in %b : i8, out o : i8) {
  %0 = comb.xor %a, %b : i8
  hw.output %0 : i8
}
hw.module @q(in %a : i8, in %b : i8, out o : i8) {
  %ones = hw.constant -1 : i8
  %na = comb.xor %a, %ones : i8
  %nb = comb.xor %b, %ones : i8
  %0 = comb.or %a, %b : i8
  %1 = comb.or %na, %nb : i8
  %2 = comb.and %0, %1 : i8
  hw.output %2 : i8
}
