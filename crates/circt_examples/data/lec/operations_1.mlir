// add of one bit, against sub of a negative
hw.module @p(in %a : i1, in %b : i1, in %c : i1, out o : i1) {
  %0 = comb.add %a, %b : i1
  hw.output %0 : i1
}
hw.module @q(in %a : i1, in %b : i1, in %c : i1, out o : i1) {
  %zero = hw.constant 0 : i1
  %0 = comb.sub %zero, %b : i1
  %1 = comb.sub %a, %0 : i1
  hw.output %1 : i1
}
// -----
// add of one bit, against or
hw.module @p(in %a : i1, in %b : i1, in %c : i1, out o : i1) {
  %0 = comb.add %a, %b : i1
  hw.output %0 : i1
}
hw.module @q(in %a : i1, in %b : i1, in %c : i1, out o : i1) {
  %0 = comb.or %a, %b : i1
  hw.output %0 : i1
}
// -----
// sub of one bit, against an add between two complements
hw.module @p(in %a : i1, in %b : i1, in %c : i1, out o : i1) {
  %0 = comb.sub %a, %b : i1
  hw.output %0 : i1
}
hw.module @q(in %a : i1, in %b : i1, in %c : i1, out o : i1) {
  %ones = hw.constant -1 : i1
  %0 = comb.xor %a, %ones : i1
  %1 = comb.add %0, %b : i1
  %2 = comb.xor %1, %ones : i1
  hw.output %2 : i1
}
// -----
// sub of one bit, against an add after one complement
hw.module @p(in %a : i1, in %b : i1, in %c : i1, out o : i1) {
  %0 = comb.sub %a, %b : i1
  hw.output %0 : i1
}
hw.module @q(in %a : i1, in %b : i1, in %c : i1, out o : i1) {
  %ones = hw.constant -1 : i1
  %0 = comb.xor %a, %ones : i1
  %1 = comb.add %0, %b : i1
  hw.output %1 : i1
}
// -----
// mul of one bit by -1, against 0 less the value
hw.module @p(in %a : i1, in %b : i1, in %c : i1, out o : i1) {
  %ones = hw.constant -1 : i1
  %0 = comb.mul %a, %ones : i1
  hw.output %0 : i1
}
hw.module @q(in %a : i1, in %b : i1, in %c : i1, out o : i1) {
  %zero = hw.constant 0 : i1
  %0 = comb.sub %zero, %a : i1
  hw.output %0 : i1
}
// -----
// mul of one bit by -1, against the complement
hw.module @p(in %a : i1, in %b : i1, in %c : i1, out o : i1) {
  %ones = hw.constant -1 : i1
  %0 = comb.mul %a, %ones : i1
  hw.output %0 : i1
}
hw.module @q(in %a : i1, in %b : i1, in %c : i1, out o : i1) {
  %ones = hw.constant -1 : i1
  %0 = comb.xor %a, %ones : i1
  hw.output %0 : i1
}
// -----
// mul of one bit by copies of a bit, against a mux of 0 less the value and 0
hw.module @p(in %a : i1, in %b : i1, in %c : i1, out o : i1) {
  %bit = comb.replicate %c : (i1) -> i1
  %0 = comb.mul %a, %bit : i1
  hw.output %0 : i1
}
hw.module @q(in %a : i1, in %b : i1, in %c : i1, out o : i1) {
  %zero = hw.constant 0 : i1
  %0 = comb.sub %zero, %a : i1
  %1 = comb.mux %c, %0, %zero : i1
  hw.output %1 : i1
}
// -----
// mul of one bit by copies of a bit, against a mux of 0 less the value and another value
hw.module @p(in %a : i1, in %b : i1, in %c : i1, out o : i1) {
  %bit = comb.replicate %c : (i1) -> i1
  %0 = comb.mul %a, %bit : i1
  hw.output %0 : i1
}
hw.module @q(in %a : i1, in %b : i1, in %c : i1, out o : i1) {
  %zero = hw.constant 0 : i1
  %0 = comb.sub %zero, %a : i1
  %1 = comb.mux %c, %0, %b : i1
  hw.output %1 : i1
}
// -----
// divu of one bit by all ones, against whether the value is all ones
hw.module @p(in %a : i1, in %b : i1, in %c : i1, out o : i1) {
  %ones = hw.constant -1 : i1
  %0 = comb.divu %a, %ones : i1
  hw.output %0 : i1
}
hw.module @q(in %a : i1, in %b : i1, in %c : i1, out o : i1) {
  %zero = hw.constant 0 : i1
  %ones = hw.constant -1 : i1
  %one = comb.sub %zero, %ones : i1
  %0 = comb.icmp eq %a, %ones : i1
  %1 = comb.mux %0, %one, %zero : i1
  hw.output %1 : i1
}
// -----
// divu of one bit by all ones, against whether another value is all ones
hw.module @p(in %a : i1, in %b : i1, in %c : i1, out o : i1) {
  %ones = hw.constant -1 : i1
  %0 = comb.divu %a, %ones : i1
  hw.output %0 : i1
}
hw.module @q(in %a : i1, in %b : i1, in %c : i1, out o : i1) {
  %zero = hw.constant 0 : i1
  %ones = hw.constant -1 : i1
  %one = comb.sub %zero, %ones : i1
  %0 = comb.icmp eq %b, %ones : i1
  %1 = comb.mux %0, %one, %zero : i1
  hw.output %1 : i1
}
// -----
// modu of one bit by all ones, against 0 for all ones and else the value
hw.module @p(in %a : i1, in %b : i1, in %c : i1, out o : i1) {
  %ones = hw.constant -1 : i1
  %0 = comb.modu %a, %ones : i1
  hw.output %0 : i1
}
hw.module @q(in %a : i1, in %b : i1, in %c : i1, out o : i1) {
  %zero = hw.constant 0 : i1
  %ones = hw.constant -1 : i1
  %0 = comb.icmp eq %a, %ones : i1
  %1 = comb.mux %0, %zero, %a : i1
  hw.output %1 : i1
}
// -----
// modu of one bit by all ones, against the value
hw.module @p(in %a : i1, in %b : i1, in %c : i1, out o : i1) {
  %ones = hw.constant -1 : i1
  %0 = comb.modu %a, %ones : i1
  hw.output %0 : i1
}
hw.module @q(in %a : i1, in %b : i1, in %c : i1, out o : i1) {
  hw.output %a : i1
}
// -----
// divs of one bit by -1, against 0 less the value: the least word gives itself
hw.module @p(in %a : i1, in %b : i1, in %c : i1, out o : i1) {
  %ones = hw.constant -1 : i1
  %0 = comb.divs %a, %ones : i1
  hw.output %0 : i1
}
hw.module @q(in %a : i1, in %b : i1, in %c : i1, out o : i1) {
  %zero = hw.constant 0 : i1
  %0 = comb.sub %zero, %a : i1
  hw.output %0 : i1
}
// -----
// divs of one bit by -1, against the complement
hw.module @p(in %a : i1, in %b : i1, in %c : i1, out o : i1) {
  %ones = hw.constant -1 : i1
  %0 = comb.divs %a, %ones : i1
  hw.output %0 : i1
}
hw.module @q(in %a : i1, in %b : i1, in %c : i1, out o : i1) {
  %ones = hw.constant -1 : i1
  %0 = comb.xor %a, %ones : i1
  hw.output %0 : i1
}
// -----
// mods of one bit by -1, against 0
hw.module @p(in %a : i1, in %b : i1, in %c : i1, out o : i1) {
  %ones = hw.constant -1 : i1
  %0 = comb.mods %a, %ones : i1
  hw.output %0 : i1
}
hw.module @q(in %a : i1, in %b : i1, in %c : i1, out o : i1) {
  %zero = hw.constant 0 : i1
  hw.output %zero : i1
}
// -----
// mods of one bit by -1, against the value
hw.module @p(in %a : i1, in %b : i1, in %c : i1, out o : i1) {
  %ones = hw.constant -1 : i1
  %0 = comb.mods %a, %ones : i1
  hw.output %0 : i1
}
hw.module @q(in %a : i1, in %b : i1, in %c : i1, out o : i1) {
  hw.output %a : i1
}
// -----
// shl of one bit by a value, against one place and the rest, unless by 0
hw.module @p(in %a : i1, in %b : i1, in %c : i1, out o : i1) {
  %0 = comb.shl %a, %b : i1
  hw.output %0 : i1
}
hw.module @q(in %a : i1, in %b : i1, in %c : i1, out o : i1) {
  %zero = hw.constant 0 : i1
  %ones = hw.constant -1 : i1
  %none = comb.icmp eq %b, %zero : i1
  %rest = comb.add %b, %ones : i1
  %0 = comb.add %a, %a : i1
  %1 = comb.shl %0, %rest : i1
  %2 = comb.mux %none, %a, %1 : i1
  hw.output %2 : i1
}
// -----
// shl of one bit by a value, against one place and the rest, by 0 too
hw.module @p(in %a : i1, in %b : i1, in %c : i1, out o : i1) {
  %0 = comb.shl %a, %b : i1
  hw.output %0 : i1
}
hw.module @q(in %a : i1, in %b : i1, in %c : i1, out o : i1) {
  %ones = hw.constant -1 : i1
  %rest = comb.add %b, %ones : i1
  %0 = comb.add %a, %a : i1
  %1 = comb.shl %0, %rest : i1
  hw.output %1 : i1
}
// -----
// shru of one bit by a value, against one place and the rest, unless by 0
hw.module @p(in %a : i1, in %b : i1, in %c : i1, out o : i1) {
  %0 = comb.shru %a, %b : i1
  hw.output %0 : i1
}
hw.module @q(in %a : i1, in %b : i1, in %c : i1, out o : i1) {
  %zero = hw.constant 0 : i1
  %ones = hw.constant -1 : i1
  %one = comb.sub %zero, %ones : i1
  %none = comb.icmp eq %b, %zero : i1
  %rest = comb.add %b, %ones : i1
  %0 = comb.shru %a, %one : i1
  %1 = comb.shru %0, %rest : i1
  %2 = comb.mux %none, %a, %1 : i1
  hw.output %2 : i1
}
// -----
// shru of one bit by a value, against shrs
hw.module @p(in %a : i1, in %b : i1, in %c : i1, out o : i1) {
  %0 = comb.shru %a, %b : i1
  hw.output %0 : i1
}
hw.module @q(in %a : i1, in %b : i1, in %c : i1, out o : i1) {
  %0 = comb.shrs %a, %b : i1
  hw.output %0 : i1
}
// -----
// shrs of one bit by a value, against shru of the value or between complements
hw.module @p(in %a : i1, in %b : i1, in %c : i1, out o : i1) {
  %0 = comb.shrs %a, %b : i1
  hw.output %0 : i1
}
hw.module @q(in %a : i1, in %b : i1, in %c : i1, out o : i1) {
  %zero = hw.constant 0 : i1
  %ones = hw.constant -1 : i1
  %negative = comb.icmp slt %a, %zero : i1
  %0 = comb.xor %a, %ones : i1
  %1 = comb.shru %0, %b : i1
  %2 = comb.xor %1, %ones : i1
  %3 = comb.shru %a, %b : i1
  %4 = comb.mux %negative, %2, %3 : i1
  hw.output %4 : i1
}
// -----
// shrs of one bit by a value, against shru
hw.module @p(in %a : i1, in %b : i1, in %c : i1, out o : i1) {
  %0 = comb.shrs %a, %b : i1
  hw.output %0 : i1
}
hw.module @q(in %a : i1, in %b : i1, in %c : i1, out o : i1) {
  %0 = comb.shru %a, %b : i1
  hw.output %0 : i1
}
// -----
// and of one bit, against a complement of an or of complements
hw.module @p(in %a : i1, in %b : i1, in %c : i1, out o : i1) {
  %0 = comb.and %a, %b : i1
  hw.output %0 : i1
}
hw.module @q(in %a : i1, in %b : i1, in %c : i1, out o : i1) {
  %ones = hw.constant -1 : i1
  %0 = comb.xor %a, %ones : i1
  %1 = comb.xor %b, %ones : i1
  %2 = comb.or %0, %1 : i1
  %3 = comb.xor %2, %ones : i1
  hw.output %3 : i1
}
// -----
// and of one bit, against or
hw.module @p(in %a : i1, in %b : i1, in %c : i1, out o : i1) {
  %0 = comb.and %a, %b : i1
  hw.output %0 : i1
}
hw.module @q(in %a : i1, in %b : i1, in %c : i1, out o : i1) {
  %0 = comb.or %a, %b : i1
  hw.output %0 : i1
}
// -----
// or of one bit, against an xor with the and
hw.module @p(in %a : i1, in %b : i1, in %c : i1, out o : i1) {
  %0 = comb.or %a, %b : i1
  hw.output %0 : i1
}
hw.module @q(in %a : i1, in %b : i1, in %c : i1, out o : i1) {
  %0 = comb.and %a, %b : i1
  %1 = comb.xor %a, %b, %0 : i1
  hw.output %1 : i1
}
// -----
// or of one bit, against xor
hw.module @p(in %a : i1, in %b : i1, in %c : i1, out o : i1) {
  %0 = comb.or %a, %b : i1
  hw.output %0 : i1
}
hw.module @q(in %a : i1, in %b : i1, in %c : i1, out o : i1) {
  %0 = comb.xor %a, %b : i1
  hw.output %0 : i1
}
// -----
// xor of one bit, against the or without the and
hw.module @p(in %a : i1, in %b : i1, in %c : i1, out o : i1) {
  %0 = comb.xor %a, %b : i1
  hw.output %0 : i1
}
hw.module @q(in %a : i1, in %b : i1, in %c : i1, out o : i1) {
  %ones = hw.constant -1 : i1
  %0 = comb.or %a, %b : i1
  %1 = comb.and %a, %b : i1
  %2 = comb.xor %1, %ones : i1
  %3 = comb.and %0, %2 : i1
  hw.output %3 : i1
}
// -----
// xor of one bit, against or
hw.module @p(in %a : i1, in %b : i1, in %c : i1, out o : i1) {
  %0 = comb.xor %a, %b : i1
  hw.output %0 : i1
}
hw.module @q(in %a : i1, in %b : i1, in %c : i1, out o : i1) {
  %0 = comb.or %a, %b : i1
  hw.output %0 : i1
}
// -----
// parity of one bit, against those of an xor and of the other value
hw.module @p(in %a : i1, in %b : i1, in %c : i1, out o : i1) {
  %0 = comb.parity %a : i1
  hw.output %0 : i1
}
hw.module @q(in %a : i1, in %b : i1, in %c : i1, out o : i1) {
  %0 = comb.xor %a, %b : i1
  %1 = comb.parity %0 : i1
  %2 = comb.parity %b : i1
  %3 = comb.xor %1, %2 : i1
  hw.output %3 : i1
}
// -----
// parity of one bit, against that of an xor
hw.module @p(in %a : i1, in %b : i1, in %c : i1, out o : i1) {
  %0 = comb.parity %a : i1
  hw.output %0 : i1
}
hw.module @q(in %a : i1, in %b : i1, in %c : i1, out o : i1) {
  %0 = comb.xor %a, %b : i1
  %1 = comb.parity %0 : i1
  hw.output %1 : i1
}
// -----
// mux of one bit, against masks by copies of the condition
hw.module @p(in %a : i1, in %b : i1, in %c : i1, out o : i1) {
  %0 = comb.mux %c, %a, %b : i1
  hw.output %0 : i1
}
hw.module @q(in %a : i1, in %b : i1, in %c : i1, out o : i1) {
  %0 = comb.replicate %c : (i1) -> i1
  %1 = comb.xor %a, %b : i1
  %2 = comb.and %0, %1 : i1
  %3 = comb.xor %2, %b : i1
  hw.output %3 : i1
}
// -----
// mux of one bit, against one of exchanged sides
hw.module @p(in %a : i1, in %b : i1, in %c : i1, out o : i1) {
  %0 = comb.mux %c, %a, %b : i1
  hw.output %0 : i1
}
hw.module @q(in %a : i1, in %b : i1, in %c : i1, out o : i1) {
  %0 = comb.mux %c, %b, %a : i1
  hw.output %0 : i1
}
// -----
// the high half of a concat of one bit, against the first operand
hw.module @p(in %a : i1, in %b : i1, in %c : i1, out o : i1) {
  %0 = comb.concat %a, %b : i1, i1
  %1 = comb.extract %0 from 1 : (i2) -> i1
  hw.output %1 : i1
}
hw.module @q(in %a : i1, in %b : i1, in %c : i1, out o : i1) {
  hw.output %a : i1
}
// -----
// the high half of a concat of one bit, against the second operand
hw.module @p(in %a : i1, in %b : i1, in %c : i1, out o : i1) {
  %0 = comb.concat %a, %b : i1, i1
  %1 = comb.extract %0 from 1 : (i2) -> i1
  hw.output %1 : i1
}
hw.module @q(in %a : i1, in %b : i1, in %c : i1, out o : i1) {
  hw.output %b : i1
}
// -----
// the low half of a concat of one bit, against the second operand
hw.module @p(in %a : i1, in %b : i1, in %c : i1, out o : i1) {
  %0 = comb.concat %a, %b : i1, i1
  %1 = comb.extract %0 from 0 : (i2) -> i1
  hw.output %1 : i1
}
hw.module @q(in %a : i1, in %b : i1, in %c : i1, out o : i1) {
  hw.output %b : i1
}
// -----
// the low half of a concat of one bit, against the first operand
hw.module @p(in %a : i1, in %b : i1, in %c : i1, out o : i1) {
  %0 = comb.concat %a, %b : i1, i1
  %1 = comb.extract %0 from 0 : (i2) -> i1
  hw.output %1 : i1
}
hw.module @q(in %a : i1, in %b : i1, in %c : i1, out o : i1) {
  hw.output %a : i1
}
// -----
// two copies of one bit, against a concat of the value with itself
hw.module @p(in %a : i1, in %b : i1, out o : i2) {
  %0 = comb.replicate %a : (i1) -> i2
  hw.output %0 : i2
}
hw.module @q(in %a : i1, in %b : i1, out o : i2) {
  %0 = comb.concat %a, %a : i1, i1
  hw.output %0 : i2
}
// -----
// two copies of one bit, against a concat with another value
hw.module @p(in %a : i1, in %b : i1, out o : i2) {
  %0 = comb.replicate %a : (i1) -> i2
  hw.output %0 : i2
}
hw.module @q(in %a : i1, in %b : i1, out o : i2) {
  %0 = comb.concat %a, %b : i1, i1
  hw.output %0 : i2
}
