// add of 3 bits, against sub of a negative
hw.module @p(in %a : i3, in %b : i3, in %c : i1, out o : i3) {
  %0 = comb.add %a, %b : i3
  hw.output %0 : i3
}
hw.module @q(in %a : i3, in %b : i3, in %c : i1, out o : i3) {
  %zero = hw.constant 0 : i3
  %0 = comb.sub %zero, %b : i3
  %1 = comb.sub %a, %0 : i3
  hw.output %1 : i3
}
// -----
// add of 3 bits, against or
hw.module @p(in %a : i3, in %b : i3, in %c : i1, out o : i3) {
  %0 = comb.add %a, %b : i3
  hw.output %0 : i3
}
hw.module @q(in %a : i3, in %b : i3, in %c : i1, out o : i3) {
  %0 = comb.or %a, %b : i3
  hw.output %0 : i3
}
// -----
// sub of 3 bits, against an add between two complements
hw.module @p(in %a : i3, in %b : i3, in %c : i1, out o : i3) {
  %0 = comb.sub %a, %b : i3
  hw.output %0 : i3
}
hw.module @q(in %a : i3, in %b : i3, in %c : i1, out o : i3) {
  %ones = hw.constant -1 : i3
  %0 = comb.xor %a, %ones : i3
  %1 = comb.add %0, %b : i3
  %2 = comb.xor %1, %ones : i3
  hw.output %2 : i3
}
// -----
// sub of 3 bits, against an add after one complement
hw.module @p(in %a : i3, in %b : i3, in %c : i1, out o : i3) {
  %0 = comb.sub %a, %b : i3
  hw.output %0 : i3
}
hw.module @q(in %a : i3, in %b : i3, in %c : i1, out o : i3) {
  %ones = hw.constant -1 : i3
  %0 = comb.xor %a, %ones : i3
  %1 = comb.add %0, %b : i3
  hw.output %1 : i3
}
// -----
// mul of 3 bits by -1, against 0 less the value
hw.module @p(in %a : i3, in %b : i3, in %c : i1, out o : i3) {
  %ones = hw.constant -1 : i3
  %0 = comb.mul %a, %ones : i3
  hw.output %0 : i3
}
hw.module @q(in %a : i3, in %b : i3, in %c : i1, out o : i3) {
  %zero = hw.constant 0 : i3
  %0 = comb.sub %zero, %a : i3
  hw.output %0 : i3
}
// -----
// mul of 3 bits by -1, against the complement
hw.module @p(in %a : i3, in %b : i3, in %c : i1, out o : i3) {
  %ones = hw.constant -1 : i3
  %0 = comb.mul %a, %ones : i3
  hw.output %0 : i3
}
hw.module @q(in %a : i3, in %b : i3, in %c : i1, out o : i3) {
  %ones = hw.constant -1 : i3
  %0 = comb.xor %a, %ones : i3
  hw.output %0 : i3
}
// -----
// mul of 3 bits by copies of a bit, against a mux of 0 less the value and 0
hw.module @p(in %a : i3, in %b : i3, in %c : i1, out o : i3) {
  %bit = comb.replicate %c : (i1) -> i3
  %0 = comb.mul %a, %bit : i3
  hw.output %0 : i3
}
hw.module @q(in %a : i3, in %b : i3, in %c : i1, out o : i3) {
  %zero = hw.constant 0 : i3
  %0 = comb.sub %zero, %a : i3
  %1 = comb.mux %c, %0, %zero : i3
  hw.output %1 : i3
}
// -----
// mul of 3 bits by copies of a bit, against a mux of 0 less the value and another value
hw.module @p(in %a : i3, in %b : i3, in %c : i1, out o : i3) {
  %bit = comb.replicate %c : (i1) -> i3
  %0 = comb.mul %a, %bit : i3
  hw.output %0 : i3
}
hw.module @q(in %a : i3, in %b : i3, in %c : i1, out o : i3) {
  %zero = hw.constant 0 : i3
  %0 = comb.sub %zero, %a : i3
  %1 = comb.mux %c, %0, %b : i3
  hw.output %1 : i3
}
// -----
// divu of 3 bits by all ones, against whether the value is all ones
hw.module @p(in %a : i3, in %b : i3, in %c : i1, out o : i3) {
  %ones = hw.constant -1 : i3
  %0 = comb.divu %a, %ones : i3
  hw.output %0 : i3
}
hw.module @q(in %a : i3, in %b : i3, in %c : i1, out o : i3) {
  %zero = hw.constant 0 : i3
  %ones = hw.constant -1 : i3
  %one = comb.sub %zero, %ones : i3
  %0 = comb.icmp eq %a, %ones : i3
  %1 = comb.mux %0, %one, %zero : i3
  hw.output %1 : i3
}
// -----
// divu of 3 bits by all ones, against whether another value is all ones
hw.module @p(in %a : i3, in %b : i3, in %c : i1, out o : i3) {
  %ones = hw.constant -1 : i3
  %0 = comb.divu %a, %ones : i3
  hw.output %0 : i3
}
hw.module @q(in %a : i3, in %b : i3, in %c : i1, out o : i3) {
  %zero = hw.constant 0 : i3
  %ones = hw.constant -1 : i3
  %one = comb.sub %zero, %ones : i3
  %0 = comb.icmp eq %b, %ones : i3
  %1 = comb.mux %0, %one, %zero : i3
  hw.output %1 : i3
}
// -----
// modu of 3 bits by all ones, against 0 for all ones and else the value
hw.module @p(in %a : i3, in %b : i3, in %c : i1, out o : i3) {
  %ones = hw.constant -1 : i3
  %0 = comb.modu %a, %ones : i3
  hw.output %0 : i3
}
hw.module @q(in %a : i3, in %b : i3, in %c : i1, out o : i3) {
  %zero = hw.constant 0 : i3
  %ones = hw.constant -1 : i3
  %0 = comb.icmp eq %a, %ones : i3
  %1 = comb.mux %0, %zero, %a : i3
  hw.output %1 : i3
}
// -----
// modu of 3 bits by all ones, against the value
hw.module @p(in %a : i3, in %b : i3, in %c : i1, out o : i3) {
  %ones = hw.constant -1 : i3
  %0 = comb.modu %a, %ones : i3
  hw.output %0 : i3
}
hw.module @q(in %a : i3, in %b : i3, in %c : i1, out o : i3) {
  hw.output %a : i3
}
// -----
// divs of 3 bits by -1, against 0 less the value: the least word gives itself
hw.module @p(in %a : i3, in %b : i3, in %c : i1, out o : i3) {
  %ones = hw.constant -1 : i3
  %0 = comb.divs %a, %ones : i3
  hw.output %0 : i3
}
hw.module @q(in %a : i3, in %b : i3, in %c : i1, out o : i3) {
  %zero = hw.constant 0 : i3
  %0 = comb.sub %zero, %a : i3
  hw.output %0 : i3
}
// -----
// divs of 3 bits by -1, against the complement
hw.module @p(in %a : i3, in %b : i3, in %c : i1, out o : i3) {
  %ones = hw.constant -1 : i3
  %0 = comb.divs %a, %ones : i3
  hw.output %0 : i3
}
hw.module @q(in %a : i3, in %b : i3, in %c : i1, out o : i3) {
  %ones = hw.constant -1 : i3
  %0 = comb.xor %a, %ones : i3
  hw.output %0 : i3
}
// -----
// mods of 3 bits by -1, against 0
hw.module @p(in %a : i3, in %b : i3, in %c : i1, out o : i3) {
  %ones = hw.constant -1 : i3
  %0 = comb.mods %a, %ones : i3
  hw.output %0 : i3
}
hw.module @q(in %a : i3, in %b : i3, in %c : i1, out o : i3) {
  %zero = hw.constant 0 : i3
  hw.output %zero : i3
}
// -----
// mods of 3 bits by -1, against the value
hw.module @p(in %a : i3, in %b : i3, in %c : i1, out o : i3) {
  %ones = hw.constant -1 : i3
  %0 = comb.mods %a, %ones : i3
  hw.output %0 : i3
}
hw.module @q(in %a : i3, in %b : i3, in %c : i1, out o : i3) {
  hw.output %a : i3
}
// -----
// shl of 3 bits by a value, against one place and the rest, unless by 0
hw.module @p(in %a : i3, in %b : i3, in %c : i1, out o : i3) {
  %0 = comb.shl %a, %b : i3
  hw.output %0 : i3
}
hw.module @q(in %a : i3, in %b : i3, in %c : i1, out o : i3) {
  %zero = hw.constant 0 : i3
  %ones = hw.constant -1 : i3
  %none = comb.icmp eq %b, %zero : i3
  %rest = comb.add %b, %ones : i3
  %0 = comb.add %a, %a : i3
  %1 = comb.shl %0, %rest : i3
  %2 = comb.mux %none, %a, %1 : i3
  hw.output %2 : i3
}
// -----
// shl of 3 bits by a value, against one place and the rest, by 0 too
hw.module @p(in %a : i3, in %b : i3, in %c : i1, out o : i3) {
  %0 = comb.shl %a, %b : i3
  hw.output %0 : i3
}
hw.module @q(in %a : i3, in %b : i3, in %c : i1, out o : i3) {
  %ones = hw.constant -1 : i3
  %rest = comb.add %b, %ones : i3
  %0 = comb.add %a, %a : i3
  %1 = comb.shl %0, %rest : i3
  hw.output %1 : i3
}
// -----
// shru of 3 bits by a value, against one place and the rest, unless by 0
hw.module @p(in %a : i3, in %b : i3, in %c : i1, out o : i3) {
  %0 = comb.shru %a, %b : i3
  hw.output %0 : i3
}
hw.module @q(in %a : i3, in %b : i3, in %c : i1, out o : i3) {
  %zero = hw.constant 0 : i3
  %ones = hw.constant -1 : i3
  %one = comb.sub %zero, %ones : i3
  %none = comb.icmp eq %b, %zero : i3
  %rest = comb.add %b, %ones : i3
  %0 = comb.shru %a, %one : i3
  %1 = comb.shru %0, %rest : i3
  %2 = comb.mux %none, %a, %1 : i3
  hw.output %2 : i3
}
// -----
// shru of 3 bits by a value, against shrs
hw.module @p(in %a : i3, in %b : i3, in %c : i1, out o : i3) {
  %0 = comb.shru %a, %b : i3
  hw.output %0 : i3
}
hw.module @q(in %a : i3, in %b : i3, in %c : i1, out o : i3) {
  %0 = comb.shrs %a, %b : i3
  hw.output %0 : i3
}
// -----
// shrs of 3 bits by a value, against shru of the value or between complements
hw.module @p(in %a : i3, in %b : i3, in %c : i1, out o : i3) {
  %0 = comb.shrs %a, %b : i3
  hw.output %0 : i3
}
hw.module @q(in %a : i3, in %b : i3, in %c : i1, out o : i3) {
  %zero = hw.constant 0 : i3
  %ones = hw.constant -1 : i3
  %negative = comb.icmp slt %a, %zero : i3
  %0 = comb.xor %a, %ones : i3
  %1 = comb.shru %0, %b : i3
  %2 = comb.xor %1, %ones : i3
  %3 = comb.shru %a, %b : i3
  %4 = comb.mux %negative, %2, %3 : i3
  hw.output %4 : i3
}
// -----
// shrs of 3 bits by a value, against shru
hw.module @p(in %a : i3, in %b : i3, in %c : i1, out o : i3) {
  %0 = comb.shrs %a, %b : i3
  hw.output %0 : i3
}
hw.module @q(in %a : i3, in %b : i3, in %c : i1, out o : i3) {
  %0 = comb.shru %a, %b : i3
  hw.output %0 : i3
}
// -----
// and of 3 bits, against a complement of an or of complements
hw.module @p(in %a : i3, in %b : i3, in %c : i1, out o : i3) {
  %0 = comb.and %a, %b : i3
  hw.output %0 : i3
}
hw.module @q(in %a : i3, in %b : i3, in %c : i1, out o : i3) {
  %ones = hw.constant -1 : i3
  %0 = comb.xor %a, %ones : i3
  %1 = comb.xor %b, %ones : i3
  %2 = comb.or %0, %1 : i3
  %3 = comb.xor %2, %ones : i3
  hw.output %3 : i3
}
// -----
// and of 3 bits, against or
hw.module @p(in %a : i3, in %b : i3, in %c : i1, out o : i3) {
  %0 = comb.and %a, %b : i3
  hw.output %0 : i3
}
hw.module @q(in %a : i3, in %b : i3, in %c : i1, out o : i3) {
  %0 = comb.or %a, %b : i3
  hw.output %0 : i3
}
// -----
// or of 3 bits, against an xor with the and
hw.module @p(in %a : i3, in %b : i3, in %c : i1, out o : i3) {
  %0 = comb.or %a, %b : i3
  hw.output %0 : i3
}
hw.module @q(in %a : i3, in %b : i3, in %c : i1, out o : i3) {
  %0 = comb.and %a, %b : i3
  %1 = comb.xor %a, %b, %0 : i3
  hw.output %1 : i3
}
// -----
// or of 3 bits, against xor
hw.module @p(in %a : i3, in %b : i3, in %c : i1, out o : i3) {
  %0 = comb.or %a, %b : i3
  hw.output %0 : i3
}
hw.module @q(in %a : i3, in %b : i3, in %c : i1, out o : i3) {
  %0 = comb.xor %a, %b : i3
  hw.output %0 : i3
}
// -----
// xor of 3 bits, against the or without the and
hw.module @p(in %a : i3, in %b : i3, in %c : i1, out o : i3) {
  %0 = comb.xor %a, %b : i3
  hw.output %0 : i3
}
hw.module @q(in %a : i3, in %b : i3, in %c : i1, out o : i3) {
  %ones = hw.constant -1 : i3
  %0 = comb.or %a, %b : i3
  %1 = comb.and %a, %b : i3
  %2 = comb.xor %1, %ones : i3
  %3 = comb.and %0, %2 : i3
  hw.output %3 : i3
}
// -----
// xor of 3 bits, against or
hw.module @p(in %a : i3, in %b : i3, in %c : i1, out o : i3) {
  %0 = comb.xor %a, %b : i3
  hw.output %0 : i3
}
hw.module @q(in %a : i3, in %b : i3, in %c : i1, out o : i3) {
  %0 = comb.or %a, %b : i3
  hw.output %0 : i3
}
// -----
// parity of 3 bits, against those of an xor and of the other value
hw.module @p(in %a : i3, in %b : i3, in %c : i1, out o : i1) {
  %0 = comb.parity %a : i3
  hw.output %0 : i1
}
hw.module @q(in %a : i3, in %b : i3, in %c : i1, out o : i1) {
  %0 = comb.xor %a, %b : i3
  %1 = comb.parity %0 : i3
  %2 = comb.parity %b : i3
  %3 = comb.xor %1, %2 : i1
  hw.output %3 : i1
}
// -----
// parity of 3 bits, against that of an xor
hw.module @p(in %a : i3, in %b : i3, in %c : i1, out o : i1) {
  %0 = comb.parity %a : i3
  hw.output %0 : i1
}
hw.module @q(in %a : i3, in %b : i3, in %c : i1, out o : i1) {
  %0 = comb.xor %a, %b : i3
  %1 = comb.parity %0 : i3
  hw.output %1 : i1
}
// -----
// mux of 3 bits, against masks by copies of the condition
hw.module @p(in %a : i3, in %b : i3, in %c : i1, out o : i3) {
  %0 = comb.mux %c, %a, %b : i3
  hw.output %0 : i3
}
hw.module @q(in %a : i3, in %b : i3, in %c : i1, out o : i3) {
  %0 = comb.replicate %c : (i1) -> i3
  %1 = comb.xor %a, %b : i3
  %2 = comb.and %0, %1 : i3
  %3 = comb.xor %2, %b : i3
  hw.output %3 : i3
}
// -----
// mux of 3 bits, against one of exchanged sides
hw.module @p(in %a : i3, in %b : i3, in %c : i1, out o : i3) {
  %0 = comb.mux %c, %a, %b : i3
  hw.output %0 : i3
}
hw.module @q(in %a : i3, in %b : i3, in %c : i1, out o : i3) {
  %0 = comb.mux %c, %b, %a : i3
  hw.output %0 : i3
}
// -----
// the high half of a concat of 3 bits, against the first operand
hw.module @p(in %a : i3, in %b : i3, in %c : i1, out o : i3) {
  %0 = comb.concat %a, %b : i3, i3
  %1 = comb.extract %0 from 3 : (i6) -> i3
  hw.output %1 : i3
}
hw.module @q(in %a : i3, in %b : i3, in %c : i1, out o : i3) {
  hw.output %a : i3
}
// -----
// the high half of a concat of 3 bits, against the second operand
hw.module @p(in %a : i3, in %b : i3, in %c : i1, out o : i3) {
  %0 = comb.concat %a, %b : i3, i3
  %1 = comb.extract %0 from 3 : (i6) -> i3
  hw.output %1 : i3
}
hw.module @q(in %a : i3, in %b : i3, in %c : i1, out o : i3) {
  hw.output %b : i3
}
// -----
// the low half of a concat of 3 bits, against the second operand
hw.module @p(in %a : i3, in %b : i3, in %c : i1, out o : i3) {
  %0 = comb.concat %a, %b : i3, i3
  %1 = comb.extract %0 from 0 : (i6) -> i3
  hw.output %1 : i3
}
hw.module @q(in %a : i3, in %b : i3, in %c : i1, out o : i3) {
  hw.output %b : i3
}
// -----
// the low half of a concat of 3 bits, against the first operand
hw.module @p(in %a : i3, in %b : i3, in %c : i1, out o : i3) {
  %0 = comb.concat %a, %b : i3, i3
  %1 = comb.extract %0 from 0 : (i6) -> i3
  hw.output %1 : i3
}
hw.module @q(in %a : i3, in %b : i3, in %c : i1, out o : i3) {
  hw.output %a : i3
}
// -----
// two copies of 3 bits, against a concat of the value with itself
hw.module @p(in %a : i3, in %b : i3, out o : i6) {
  %0 = comb.replicate %a : (i3) -> i6
  hw.output %0 : i6
}
hw.module @q(in %a : i3, in %b : i3, out o : i6) {
  %0 = comb.concat %a, %a : i3, i3
  hw.output %0 : i6
}
// -----
// two copies of 3 bits, against a concat with another value
hw.module @p(in %a : i3, in %b : i3, out o : i6) {
  %0 = comb.replicate %a : (i3) -> i6
  hw.output %0 : i6
}
hw.module @q(in %a : i3, in %b : i3, out o : i6) {
  %0 = comb.concat %a, %b : i3, i3
  hw.output %0 : i6
}
