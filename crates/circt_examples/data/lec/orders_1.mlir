// eq of one bit, against ule both ways
hw.module @p(in %a : i1, in %b : i1, in %c : i1, out o : i1) {
  %0 = comb.icmp eq %a, %b : i1
  hw.output %0 : i1
}
hw.module @q(in %a : i1, in %b : i1, in %c : i1, out o : i1) {
  %0 = comb.icmp ule %a, %b : i1
  %1 = comb.icmp ule %b, %a : i1
  %2 = comb.and %0, %1 : i1
  hw.output %2 : i1
}
// -----
// eq of one bit, against ule
hw.module @p(in %a : i1, in %b : i1, in %c : i1, out o : i1) {
  %0 = comb.icmp eq %a, %b : i1
  hw.output %0 : i1
}
hw.module @q(in %a : i1, in %b : i1, in %c : i1, out o : i1) {
  %0 = comb.icmp ule %a, %b : i1
  hw.output %0 : i1
}
// -----
// ne of one bit, against slt one way or the other
hw.module @p(in %a : i1, in %b : i1, in %c : i1, out o : i1) {
  %0 = comb.icmp ne %a, %b : i1
  hw.output %0 : i1
}
hw.module @q(in %a : i1, in %b : i1, in %c : i1, out o : i1) {
  %0 = comb.icmp slt %a, %b : i1
  %1 = comb.icmp slt %b, %a : i1
  %2 = comb.or %0, %1 : i1
  hw.output %2 : i1
}
// -----
// ne of one bit, against slt
hw.module @p(in %a : i1, in %b : i1, in %c : i1, out o : i1) {
  %0 = comb.icmp ne %a, %b : i1
  hw.output %0 : i1
}
hw.module @q(in %a : i1, in %b : i1, in %c : i1, out o : i1) {
  %0 = comb.icmp slt %a, %b : i1
  hw.output %0 : i1
}
// -----
// slt of one bit, against ult of words with their signs turned
hw.module @p(in %a : i1, in %b : i1, in %c : i1, out o : i1) {
  %0 = comb.icmp slt %a, %b : i1
  hw.output %0 : i1
}
hw.module @q(in %a : i1, in %b : i1, in %c : i1, out o : i1) {
  %zero = hw.constant 0 : i1
  %ones = hw.constant -1 : i1
  %one = comb.sub %zero, %ones : i1
  %0 = comb.shru %ones, %one : i1
  %sign = comb.xor %0, %ones : i1
  %1 = comb.xor %a, %sign : i1
  %2 = comb.xor %b, %sign : i1
  %3 = comb.icmp ult %1, %2 : i1
  hw.output %3 : i1
}
// -----
// slt of one bit, against ult
hw.module @p(in %a : i1, in %b : i1, in %c : i1, out o : i1) {
  %0 = comb.icmp slt %a, %b : i1
  hw.output %0 : i1
}
hw.module @q(in %a : i1, in %b : i1, in %c : i1, out o : i1) {
  %0 = comb.icmp ult %a, %b : i1
  hw.output %0 : i1
}
// -----
// sle of one bit, against sge of exchanged operands
hw.module @p(in %a : i1, in %b : i1, in %c : i1, out o : i1) {
  %0 = comb.icmp sle %a, %b : i1
  hw.output %0 : i1
}
hw.module @q(in %a : i1, in %b : i1, in %c : i1, out o : i1) {
  %0 = comb.icmp sge %b, %a : i1
  hw.output %0 : i1
}
// -----
// sle of one bit, against slt
hw.module @p(in %a : i1, in %b : i1, in %c : i1, out o : i1) {
  %0 = comb.icmp sle %a, %b : i1
  hw.output %0 : i1
}
hw.module @q(in %a : i1, in %b : i1, in %c : i1, out o : i1) {
  %0 = comb.icmp slt %a, %b : i1
  hw.output %0 : i1
}
// -----
// sgt of one bit, against the negation of sle
hw.module @p(in %a : i1, in %b : i1, in %c : i1, out o : i1) {
  %0 = comb.icmp sgt %a, %b : i1
  hw.output %0 : i1
}
hw.module @q(in %a : i1, in %b : i1, in %c : i1, out o : i1) {
  %true = hw.constant true
  %0 = comb.icmp sle %a, %b : i1
  %1 = comb.xor %0, %true : i1
  hw.output %1 : i1
}
// -----
// sgt of one bit, against sge
hw.module @p(in %a : i1, in %b : i1, in %c : i1, out o : i1) {
  %0 = comb.icmp sgt %a, %b : i1
  hw.output %0 : i1
}
hw.module @q(in %a : i1, in %b : i1, in %c : i1, out o : i1) {
  %0 = comb.icmp sge %a, %b : i1
  hw.output %0 : i1
}
// -----
// sge of one bit, against the negation of slt
hw.module @p(in %a : i1, in %b : i1, in %c : i1, out o : i1) {
  %0 = comb.icmp sge %a, %b : i1
  hw.output %0 : i1
}
hw.module @q(in %a : i1, in %b : i1, in %c : i1, out o : i1) {
  %true = hw.constant true
  %0 = comb.icmp slt %a, %b : i1
  %1 = comb.xor %0, %true : i1
  hw.output %1 : i1
}
// -----
// sge of one bit, against uge
hw.module @p(in %a : i1, in %b : i1, in %c : i1, out o : i1) {
  %0 = comb.icmp sge %a, %b : i1
  hw.output %0 : i1
}
hw.module @q(in %a : i1, in %b : i1, in %c : i1, out o : i1) {
  %0 = comb.icmp uge %a, %b : i1
  hw.output %0 : i1
}
// -----
// ult of one bit, against ugt of complements
hw.module @p(in %a : i1, in %b : i1, in %c : i1, out o : i1) {
  %0 = comb.icmp ult %a, %b : i1
  hw.output %0 : i1
}
hw.module @q(in %a : i1, in %b : i1, in %c : i1, out o : i1) {
  %ones = hw.constant -1 : i1
  %0 = comb.xor %a, %ones : i1
  %1 = comb.xor %b, %ones : i1
  %2 = comb.icmp ugt %0, %1 : i1
  hw.output %2 : i1
}
// -----
// ult of one bit, against ule
hw.module @p(in %a : i1, in %b : i1, in %c : i1, out o : i1) {
  %0 = comb.icmp ult %a, %b : i1
  hw.output %0 : i1
}
hw.module @q(in %a : i1, in %b : i1, in %c : i1, out o : i1) {
  %0 = comb.icmp ule %a, %b : i1
  hw.output %0 : i1
}
// -----
// ule of one bit, against uge of exchanged operands
hw.module @p(in %a : i1, in %b : i1, in %c : i1, out o : i1) {
  %0 = comb.icmp ule %a, %b : i1
  hw.output %0 : i1
}
hw.module @q(in %a : i1, in %b : i1, in %c : i1, out o : i1) {
  %0 = comb.icmp uge %b, %a : i1
  hw.output %0 : i1
}
// -----
// ule of one bit, against ult
hw.module @p(in %a : i1, in %b : i1, in %c : i1, out o : i1) {
  %0 = comb.icmp ule %a, %b : i1
  hw.output %0 : i1
}
hw.module @q(in %a : i1, in %b : i1, in %c : i1, out o : i1) {
  %0 = comb.icmp ult %a, %b : i1
  hw.output %0 : i1
}
// -----
// ugt of one bit, against ult of exchanged operands
hw.module @p(in %a : i1, in %b : i1, in %c : i1, out o : i1) {
  %0 = comb.icmp ugt %a, %b : i1
  hw.output %0 : i1
}
hw.module @q(in %a : i1, in %b : i1, in %c : i1, out o : i1) {
  %0 = comb.icmp ult %b, %a : i1
  hw.output %0 : i1
}
// -----
// ugt of one bit, against ult
hw.module @p(in %a : i1, in %b : i1, in %c : i1, out o : i1) {
  %0 = comb.icmp ugt %a, %b : i1
  hw.output %0 : i1
}
hw.module @q(in %a : i1, in %b : i1, in %c : i1, out o : i1) {
  %0 = comb.icmp ult %a, %b : i1
  hw.output %0 : i1
}
// -----
// uge of one bit, against eq or ugt
hw.module @p(in %a : i1, in %b : i1, in %c : i1, out o : i1) {
  %0 = comb.icmp uge %a, %b : i1
  hw.output %0 : i1
}
hw.module @q(in %a : i1, in %b : i1, in %c : i1, out o : i1) {
  %0 = comb.icmp eq %a, %b : i1
  %1 = comb.icmp ugt %a, %b : i1
  %2 = comb.or %0, %1 : i1
  hw.output %2 : i1
}
// -----
// uge of one bit, against ugt
hw.module @p(in %a : i1, in %b : i1, in %c : i1, out o : i1) {
  %0 = comb.icmp uge %a, %b : i1
  hw.output %0 : i1
}
hw.module @q(in %a : i1, in %b : i1, in %c : i1, out o : i1) {
  %0 = comb.icmp ugt %a, %b : i1
  hw.output %0 : i1
}
