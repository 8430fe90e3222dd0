// eq of 8 bits, against ule both ways
hw.module @p(in %a : i8, in %b : i8, in %c : i1, out o : i1) {
  %0 = comb.icmp eq %a, %b : i8
  hw.output %0 : i1
}
hw.module @q(in %a : i8, in %b : i8, in %c : i1, out o : i1) {
  %0 = comb.icmp ule %a, %b : i8
  %1 = comb.icmp ule %b, %a : i8
  %2 = comb.and %0, %1 : i1
  hw.output %2 : i1
}
// -----
// eq of 8 bits, against ule
hw.module @p(in %a : i8, in %b : i8, in %c : i1, out o : i1) {
  %0 = comb.icmp eq %a, %b : i8
  hw.output %0 : i1
}
hw.module @q(in %a : i8, in %b : i8, in %c : i1, out o : i1) {
  %0 = comb.icmp ule %a, %b : i8
  hw.output %0 : i1
}
// -----
// ne of 8 bits, against slt one way or the other
hw.module @p(in %a : i8, in %b : i8, in %c : i1, out o : i1) {
  %0 = comb.icmp ne %a, %b : i8
  hw.output %0 : i1
}
hw.module @q(in %a : i8, in %b : i8, in %c : i1, out o : i1) {
  %0 = comb.icmp slt %a, %b : i8
  %1 = comb.icmp slt %b, %a : i8
  %2 = comb.or %0, %1 : i1
  hw.output %2 : i1
}
// -----
// ne of 8 bits, against slt
hw.module @p(in %a : i8, in %b : i8, in %c : i1, out o : i1) {
  %0 = comb.icmp ne %a, %b : i8
  hw.output %0 : i1
}
hw.module @q(in %a : i8, in %b : i8, in %c : i1, out o : i1) {
  %0 = comb.icmp slt %a, %b : i8
  hw.output %0 : i1
}
// -----
// slt of 8 bits, against ult of words with their signs turned
hw.module @p(in %a : i8, in %b : i8, in %c : i1, out o : i1) {
  %0 = comb.icmp slt %a, %b : i8
  hw.output %0 : i1
}
hw.module @q(in %a : i8, in %b : i8, in %c : i1, out o : i1) {
  %zero = hw.constant 0 : i8
  %ones = hw.constant -1 : i8
  %one = comb.sub %zero, %ones : i8
  %0 = comb.shru %ones, %one : i8
  %sign = comb.xor %0, %ones : i8
  %1 = comb.xor %a, %sign : i8
  %2 = comb.xor %b, %sign : i8
  %3 = comb.icmp ult %1, %2 : i8
  hw.output %3 : i1
}
// -----
// slt of 8 bits, against ult
hw.module @p(in %a : i8, in %b : i8, in %c : i1, out o : i1) {
  %0 = comb.icmp slt %a, %b : i8
  hw.output %0 : i1
}
hw.module @q(in %a : i8, in %b : i8, in %c : i1, out o : i1) {
  %0 = comb.icmp ult %a, %b : i8
  hw.output %0 : i1
}
// -----
// sle of 8 bits, against sge of exchanged operands
hw.module @p(in %a : i8, in %b : i8, in %c : i1, out o : i1) {
  %0 = comb.icmp sle %a, %b : i8
  hw.output %0 : i1
}
hw.module @q(in %a : i8, in %b : i8, in %c : i1, out o : i1) {
  %0 = comb.icmp sge %b, %a : i8
  hw.output %0 : i1
}
// -----
// sle of 8 bits, against slt
hw.module @p(in %a : i8, in %b : i8, in %c : i1, out o : i1) {
  %0 = comb.icmp sle %a, %b : i8
  hw.output %0 : i1
}
hw.module @q(in %a : i8, in %b : i8, in %c : i1, out o : i1) {
  %0 = comb.icmp slt %a, %b : i8
  hw.output %0 : i1
}
// -----
// sgt of 8 bits, against the negation of sle
hw.module @p(in %a : i8, in %b : i8, in %c : i1, out o : i1) {
  %0 = comb.icmp sgt %a, %b : i8
  hw.output %0 : i1
}
hw.module @q(in %a : i8, in %b : i8, in %c : i1, out o : i1) {
  %true = hw.constant true
  %0 = comb.icmp sle %a, %b : i8
  %1 = comb.xor %0, %true : i1
  hw.output %1 : i1
}
// -----
// sgt of 8 bits, against sge
hw.module @p(in %a : i8, in %b : i8, in %c : i1, out o : i1) {
  %0 = comb.icmp sgt %a, %b : i8
  hw.output %0 : i1
}
hw.module @q(in %a : i8, in %b : i8, in %c : i1, out o : i1) {
  %0 = comb.icmp sge %a, %b : i8
  hw.output %0 : i1
}
// -----
// sge of 8 bits, against the negation of slt
hw.module @p(in %a : i8, in %b : i8, in %c : i1, out o : i1) {
  %0 = comb.icmp sge %a, %b : i8
  hw.output %0 : i1
}
hw.module @q(in %a : i8, in %b : i8, in %c : i1, out o : i1) {
  %true = hw.constant true
  %0 = comb.icmp slt %a, %b : i8
  %1 = comb.xor %0, %true : i1
  hw.output %1 : i1
}
// -----
// sge of 8 bits, against uge
hw.module @p(in %a : i8, in %b : i8, in %c : i1, out o : i1) {
  %0 = comb.icmp sge %a, %b : i8
  hw.output %0 : i1
}
hw.module @q(in %a : i8, in %b : i8, in %c : i1, out o : i1) {
  %0 = comb.icmp uge %a, %b : i8
  hw.output %0 : i1
}
// -----
// ult of 8 bits, against ugt of complements
hw.module @p(in %a : i8, in %b : i8, in %c : i1, out o : i1) {
  %0 = comb.icmp ult %a, %b : i8
  hw.output %0 : i1
}
hw.module @q(in %a : i8, in %b : i8, in %c : i1, out o : i1) {
  %ones = hw.constant -1 : i8
  %0 = comb.xor %a, %ones : i8
  %1 = comb.xor %b, %ones : i8
  %2 = comb.icmp ugt %0, %1 : i8
  hw.output %2 : i1
}
// -----
// ult of 8 bits, against ule
hw.module @p(in %a : i8, in %b : i8, in %c : i1, out o : i1) {
  %0 = comb.icmp ult %a, %b : i8
  hw.output %0 : i1
}
hw.module @q(in %a : i8, in %b : i8, in %c : i1, out o : i1) {
  %0 = comb.icmp ule %a, %b : i8
  hw.output %0 : i1
}
// -----
// ule of 8 bits, against uge of exchanged operands
hw.module @p(in %a : i8, in %b : i8, in %c : i1, out o : i1) {
  %0 = comb.icmp ule %a, %b : i8
  hw.output %0 : i1
}
hw.module @q(in %a : i8, in %b : i8, in %c : i1, out o : i1) {
  %0 = comb.icmp uge %b, %a : i8
  hw.output %0 : i1
}
// -----
// ule of 8 bits, against ult
hw.module @p(in %a : i8, in %b : i8, in %c : i1, out o : i1) {
  %0 = comb.icmp ule %a, %b : i8
  hw.output %0 : i1
}
hw.module @q(in %a : i8, in %b : i8, in %c : i1, out o : i1) {
  %0 = comb.icmp ult %a, %b : i8
  hw.output %0 : i1
}
// -----
// ugt of 8 bits, against ult of exchanged operands
hw.module @p(in %a : i8, in %b : i8, in %c : i1, out o : i1) {
  %0 = comb.icmp ugt %a, %b : i8
  hw.output %0 : i1
}
hw.module @q(in %a : i8, in %b : i8, in %c : i1, out o : i1) {
  %0 = comb.icmp ult %b, %a : i8
  hw.output %0 : i1
}
// -----
// ugt of 8 bits, against ult
hw.module @p(in %a : i8, in %b : i8, in %c : i1, out o : i1) {
  %0 = comb.icmp ugt %a, %b : i8
  hw.output %0 : i1
}
hw.module @q(in %a : i8, in %b : i8, in %c : i1, out o : i1) {
  %0 = comb.icmp ult %a, %b : i8
  hw.output %0 : i1
}
// -----
// uge of 8 bits, against eq or ugt
hw.module @p(in %a : i8, in %b : i8, in %c : i1, out o : i1) {
  %0 = comb.icmp uge %a, %b : i8
  hw.output %0 : i1
}
hw.module @q(in %a : i8, in %b : i8, in %c : i1, out o : i1) {
  %0 = comb.icmp eq %a, %b : i8
  %1 = comb.icmp ugt %a, %b : i8
  %2 = comb.or %0, %1 : i1
  hw.output %2 : i1
}
// -----
// uge of 8 bits, against ugt
hw.module @p(in %a : i8, in %b : i8, in %c : i1, out o : i1) {
  %0 = comb.icmp uge %a, %b : i8
  hw.output %0 : i1
}
hw.module @q(in %a : i8, in %b : i8, in %c : i1, out o : i1) {
  %0 = comb.icmp ugt %a, %b : i8
  hw.output %0 : i1
}
