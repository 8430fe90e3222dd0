// add of 8 bits, against sub of a negative
hw.module @p(in %a : i8, in %b : i8, in %c : i1, out o : i8) {
  %0 = comb.add %a, %b : i8
  hw.output %0 : i8
}
hw.module @q(in %a : i8, in %b : i8, in %c : i1, out o : i8) {
  %zero = hw.constant 0 : i8
  %0 = comb.sub %zero, %b : i8
  %1 = comb.sub %a, %0 : i8
  hw.output %1 : i8
}
// -----
// add of 8 bits, against or
hw.module @p(in %a : i8, in %b : i8, in %c : i1, out o : i8) {
  %0 = comb.add %a, %b : i8
  hw.output %0 : i8
}
hw.module @q(in %a : i8, in %b : i8, in %c : i1, out o : i8) {
  %0 = comb.or %a, %b : i8
  hw.output %0 : i8
}
// -----
// sub of 8 bits, against an add between two complements
hw.module @p(in %a : i8, in %b : i8, in %c : i1, out o : i8) {
  %0 = comb.sub %a, %b : i8
  hw.output %0 : i8
}
hw.module @q(in %a : i8, in %b : i8, in %c : i1, out o : i8) {
  %ones = hw.constant -1 : i8
  %0 = comb.xor %a, %ones : i8
  %1 = comb.add %0, %b : i8
  %2 = comb.xor %1, %ones : i8
  hw.output %2 : i8
}
// -----
// sub of 8 bits, against an add after one complement
hw.module @p(in %a : i8, in %b : i8, in %c : i1, out o : i8) {
  %0 = comb.sub %a, %b : i8
  hw.output %0 : i8
}
hw.module @q(in %a : i8, in %b : i8, in %c : i1, out o : i8) {
  %ones = hw.constant -1 : i8
  %0 = comb.xor %a, %ones : i8
  %1 = comb.add %0, %b : i8
  hw.output %1 : i8
}
// -----
// mul of 8 bits by -1, against 0 less the value
hw.module @p(in %a : i8, in %b : i8, in %c : i1, out o : i8) {
  %ones = hw.constant -1 : i8
  %0 = comb.mul %a, %ones : i8
  hw.output %0 : i8
}
hw.module @q(in %a : i8, in %b : i8, in %c : i1, out o : i8) {
  %zero = hw.constant 0 : i8
  %0 = comb.sub %zero, %a : i8
  hw.output %0 : i8
}
// -----
// mul of 8 bits by -1, against the complement
hw.module @p(in %a : i8, in %b : i8, in %c : i1, out o : i8) {
  %ones = hw.constant -1 : i8
  %0 = comb.mul %a, %ones : i8
  hw.output %0 : i8
}
hw.module @q(in %a : i8, in %b : i8, in %c : i1, out o : i8) {
  %ones = hw.constant -1 : i8
  %0 = comb.xor %a, %ones : i8
  hw.output %0 : i8
}
// -----
// mul of 8 bits by copies of a bit, against a mux of 0 less the value and 0
hw.module @p(in %a : i8, in %b : i8, in %c : i1, out o : i8) {
  %bit = comb.replicate %c : (i1) -> i8
  %0 = comb.mul %a, %bit : i8
  hw.output %0 : i8
}
hw.module @q(in %a : i8, in %b : i8, in %c : i1, out o : i8) {
  %zero = hw.constant 0 : i8
  %0 = comb.sub %zero, %a : i8
  %1 = comb.mux %c, %0, %zero : i8
  hw.output %1 : i8
}
// -----
// mul of 8 bits by copies of a bit, against a mux of 0 less the value and another value
hw.module @p(in %a : i8, in %b : i8, in %c : i1, out o : i8) {
  %bit = comb.replicate %c : (i1) -> i8
  %0 = comb.mul %a, %bit : i8
  hw.output %0 : i8
}
hw.module @q(in %a : i8, in %b : i8, in %c : i1, out o : i8) {
  %zero = hw.constant 0 : i8
  %0 = comb.sub %zero, %a : i8
  %1 = comb.mux %c, %0, %b : i8
  hw.output %1 : i8
}
// -----
// divu of 8 bits by all ones, against whether the value is all ones
hw.module @p(in %a : i8, in %b : i8, in %c : i1, out o : i8) {
  %ones = hw.constant -1 : i8
  %0 = comb.divu %a, %ones : i8
  hw.output %0 : i8
}
hw.module @q(in %a : i8, in %b : i8, in %c : i1, out o : i8) {
  %zero = hw.constant 0 : i8
  %ones = hw.constant -1 : i8
  %one = comb.sub %zero, %ones : i8
  %0 = comb.icmp eq %a, %ones : i8
  %1 = comb.mux %0, %one, %zero : i8
  hw.output %1 : i8
}
// -----
// divu of 8 bits by all ones, against whether another value is all ones
hw.module @p(in %a : i8, in %b : i8, in %c : i1, out o : i8) {
  %ones = hw.constant -1 : i8
  %0 = comb.divu %a, %ones : i8
  hw.output %0 : i8
}
hw.module @q(in %a : i8, in %b : i8, in %c : i1, out o : i8) {
  %zero = hw.constant 0 : i8
  %ones = hw.constant -1 : i8
  %one = comb.sub %zero, %ones : i8
  %0 = comb.icmp eq %b, %ones : i8
  %1 = comb.mux %0, %one, %zero : i8
  hw.output %1 : i8
}
// -----
// modu of 8 bits by all ones, against 0 for all ones and else the value
hw.module @p(in %a : i8, in %b : i8, in %c : i1, out o : i8) {
  %ones = hw.constant -1 : i8
  %0 = comb.modu %a, %ones : i8
  hw.output %0 : i8
}
hw.module @q(in %a : i8, in %b : i8, in %c : i1, out o : i8) {
  %zero = hw.constant 0 : i8
  %ones = hw.constant -1 : i8
  %0 = comb.icmp eq %a, %ones : i8
  %1 = comb.mux %0, %zero, %a : i8
  hw.output %1 : i8
}
// -----
// modu of 8 bits by all ones, against the value
hw.module @p(in %a : i8, in %b : i8, in %c : i1, out o : i8) {
  %ones = hw.constant -1 : i8
  %0 = comb.modu %a, %ones : i8
  hw.output %0 : i8
}
hw.module @q(in %a : i8, in %b : i8, in %c : i1, out o : i8) {
  hw.output %a : i8
}
// -----
// divs of 8 bits by -1, against 0 less the value: the least word gives itself
hw.module @p(in %a : i8, in %b : i8, in %c : i1, out o : i8) {
  %ones = hw.constant -1 : i8
  %0 = comb.divs %a, %ones : i8
  hw.output %0 : i8
}
hw.module @q(in %a : i8, in %b : i8, in %c : i1, out o : i8) {
  %zero = hw.constant 0 : i8
  %0 = comb.sub %zero, %a : i8
  hw.output %0 : i8
}
// -----
// divs of 8 bits by -1, against the complement
hw.module @p(in %a : i8, in %b : i8, in %c : i1, out o : i8) {
  %ones = hw.constant -1 : i8
  %0 = comb.divs %a, %ones : i8
  hw.output %0 : i8
}
hw.module @q(in %a : i8, in %b : i8, in %c : i1, out o : i8) {
  %ones = hw.constant -1 : i8
  %0 = comb.xor %a, %ones : i8
  hw.output %0 : i8
}
// -----
// mods of 8 bits by -1, against 0
hw.module @p(in %a : i8, in %b : i8, in %c : i1, out o : i8) {
  %ones = hw.constant -1 : i8
  %0 = comb.mods %a, %ones : i8
  hw.output %0 : i8
}
hw.module @q(in %a : i8, in %b : i8, in %c : i1, out o : i8) {
  %zero = hw.constant 0 : i8
  hw.output %zero : i8
}
// -----
// mods of 8 bits by -1, against the value
hw.module @p(in %a : i8, in %b : i8, in %c : i1, out o : i8) {
  %ones = hw.constant -1 : i8
  %0 = comb.mods %a, %ones : i8
  hw.output %0 : i8
}
hw.module @q(in %a : i8, in %b : i8, in %c : i1, out o : i8) {
  hw.output %a : i8
}
// -----
// shl of 8 bits by a value, against one place and the rest, unless by 0
hw.module @p(in %a : i8, in %b : i8, in %c : i1, out o : i8) {
  %0 = comb.shl %a, %b : i8
  hw.output %0 : i8
}
hw.module @q(in %a : i8, in %b : i8, in %c : i1, out o : i8) {
  %zero = hw.constant 0 : i8
  %ones = hw.constant -1 : i8
  %none = comb.icmp eq %b, %zero : i8
  %rest = comb.add %b, %ones : i8
  %0 = comb.add %a, %a : i8
  %1 = comb.shl %0, %rest : i8
  %2 = comb.mux %none, %a, %1 : i8
  hw.output %2 : i8
}
// -----
// shl of 8 bits by a value, against one place and the rest, by 0 too
hw.module @p(in %a : i8, in %b : i8, in %c : i1, out o : i8) {
  %0 = comb.shl %a, %b : i8
  hw.output %0 : i8
}
hw.module @q(in %a : i8, in %b : i8, in %c : i1, out o : i8) {
  %ones = hw.constant -1 : i8
  %rest = comb.add %b, %ones : i8
  %0 = comb.add %a, %a : i8
  %1 = comb.shl %0, %rest : i8
  hw.output %1 : i8
}
// -----
// shru of 8 bits by a value, against one place and the rest, unless by 0
hw.module @p(in %a : i8, in %b : i8, in %c : i1, out o : i8) {
  %0 = comb.shru %a, %b : i8
  hw.output %0 : i8
}
hw.module @q(in %a : i8, in %b : i8, in %c : i1, out o : i8) {
  %zero = hw.constant 0 : i8
  %ones = hw.constant -1 : i8
  %one = comb.sub %zero, %ones : i8
  %none = comb.icmp eq %b, %zero : i8
  %rest = comb.add %b, %ones : i8
  %0 = comb.shru %a, %one : i8
  %1 = comb.shru %0, %rest : i8
  %2 = comb.mux %none, %a, %1 : i8
  hw.output %2 : i8
}
// -----
// shru of 8 bits by a value, against shrs
hw.module @p(in %a : i8, in %b : i8, in %c : i1, out o : i8) {
  %0 = comb.shru %a, %b : i8
  hw.output %0 : i8
}
hw.module @q(in %a : i8, in %b : i8, in %c : i1, out o : i8) {
  %0 = comb.shrs %a, %b : i8
  hw.output %0 : i8
}
// -----
// shrs of 8 bits by a value, against shru of the value or between complements
hw.module @p(in %a : i8, in %b : i8, in %c : i1, out o : i8) {
  %0 = comb.shrs %a, %b : i8
  hw.output %0 : i8
}
hw.module @q(in %a : i8, in %b : i8, in %c : i1, out o : i8) {
  %zero = hw.constant 0 : i8
  %ones = hw.constant -1 : i8
  %negative = comb.icmp slt %a, %zero : i8
  %0 = comb.xor %a, %ones : i8
  %1 = comb.shru %0, %b : i8
  %2 = comb.xor %1, %ones : i8
  %3 = comb.shru %a, %b : i8
  %4 = comb.mux %negative, %2, %3 : i8
  hw.output %4 : i8
}
// -----
// shrs of 8 bits by a value, against shru
hw.module @p(in %a : i8, in %b : i8, in %c : i1, out o : i8) {
  %0 = comb.shrs %a, %b : i8
  hw.output %0 : i8
}
hw.module @q(in %a : i8, in %b : i8, in %c : i1, out o : i8) {
  %0 = comb.shru %a, %b : i8
  hw.output %0 : i8
}
// -----
// and of 8 bits, against a complement of an or of complements
hw.module @p(in %a : i8, in %b : i8, in %c : i1, out o : i8) {
  %0 = comb.and %a, %b : i8
  hw.output %0 : i8
}
hw.module @q(in %a : i8, in %b : i8, in %c : i1, out o : i8) {
  %ones = hw.constant -1 : i8
  %0 = comb.xor %a, %ones : i8
  %1 = comb.xor %b, %ones : i8
  %2 = comb.or %0, %1 : i8
  %3 = comb.xor %2, %ones : i8
  hw.output %3 : i8
}
// -----
// and of 8 bits, against or
hw.module @p(in %a : i8, in %b : i8, in %c : i1, out o : i8) {
  %0 = comb.and %a, %b : i8
  hw.output %0 : i8
}
hw.module @q(in %a : i8, in %b : i8, in %c : i1, out o : i8) {
  %0 = comb.or %a, %b : i8
  hw.output %0 : i8
}
// -----
// or of 8 bits, against an xor with the and
hw.module @p(in %a : i8, in %b : i8, in %c : i1, out o : i8) {
  %0 = comb.or %a, %b : i8
  hw.output %0 : i8
}
hw.module @q(in %a : i8, in %b : i8, in %c : i1, out o : i8) {
  %0 = comb.and %a, %b : i8
  %1 = comb.xor %a, %b, %0 : i8
  hw.output %1 : i8
}
// -----
// or of 8 bits, against xor
hw.module @p(in %a : i8, in %b : i8, in %c : i1, out o : i8) {
  %0 = comb.or %a, %b : i8
  hw.output %0 : i8
}
hw.module @q(in %a : i8, in %b : i8, in %c : i1, out o : i8) {
  %0 = comb.xor %a, %b : i8
  hw.output %0 : i8
}
// -----
// xor of 8 bits, against the or without the and
hw.module @p(in %a : i8, in %b : i8, in %c : i1, out o : i8) {
  %0 = comb.xor %a, %b : i8
  hw.output %0 : i8
}
hw.module @q(in %a : i8, in %b : i8, in %c : i1, out o : i8) {
  %ones = hw.constant -1 : i8
  %0 = comb.or %a, %b : i8
  %1 = comb.and %a, %b : i8
  %2 = comb.xor %1, %ones : i8
  %3 = comb.and %0, %2 : i8
  hw.output %3 : i8
}
// -----
// xor of 8 bits, against or
hw.module @p(in %a : i8, in %b : i8, in %c : i1, out o : i8) {
  %0 = comb.xor %a, %b : i8
  hw.output %0 : i8
}
hw.module @q(in %a : i8, in %b : i8, in %c : i1, out o : i8) {
  %0 = comb.or %a, %b : i8
  hw.output %0 : i8
}
// -----
// parity of 8 bits, against those of an xor and of the other value
hw.module @p(in %a : i8, in %b : i8, in %c : i1, out o : i1) {
  %0 = comb.parity %a : i8
  hw.output %0 : i1
}
hw.module @q(in %a : i8, in %b : i8, in %c : i1, out o : i1) {
  %0 = comb.xor %a, %b : i8
  %1 = comb.parity %0 : i8
  %2 = comb.parity %b : i8
  %3 = comb.xor %1, %2 : i1
  hw.output %3 : i1
}
// -----
// parity of 8 bits, against that of an xor
hw.module @p(in %a : i8, in %b : i8, in %c : i1, out o : i1) {
  %0 = comb.parity %a : i8
  hw.output %0 : i1
}
hw.module @q(in %a : i8, in %b : i8, in %c : i1, out o : i1) {
  %0 = comb.xor %a, %b : i8
  %1 = comb.parity %0 : i8
  hw.output %1 : i1
}
// -----
// mux of 8 bits, against masks by copies of the condition
hw.module @p(in %a : i8, in %b : i8, in %c : i1, out o : i8) {
  %0 = comb.mux %c, %a, %b : i8
  hw.output %0 : i8
}
hw.module @q(in %a : i8, in %b : i8, in %c : i1, out o : i8) {
  %0 = comb.replicate %c : (i1) -> i8
  %1 = comb.xor %a, %b : i8
  %2 = comb.and %0, %1 : i8
  %3 = comb.xor %2, %b : i8
  hw.output %3 : i8
}
// -----
// mux of 8 bits, against one of exchanged sides
hw.module @p(in %a : i8, in %b : i8, in %c : i1, out o : i8) {
  %0 = comb.mux %c, %a, %b : i8
  hw.output %0 : i8
}
hw.module @q(in %a : i8, in %b : i8, in %c : i1, out o : i8) {
  %0 = comb.mux %c, %b, %a : i8
  hw.output %0 : i8
}
// -----
// the high half of a concat of 8 bits, against the first operand
hw.module @p(in %a : i8, in %b : i8, in %c : i1, out o : i8) {
  %0 = comb.concat %a, %b : i8, i8
  %1 = comb.extract %0 from 8 : (i16) -> i8
  hw.output %1 : i8
}
hw.module @q(in %a : i8, in %b : i8, in %c : i1, out o : i8) {
  hw.output %a : i8
}
// -----
// the high half of a concat of 8 bits, against the second operand
hw.module @p(in %a : i8, in %b : i8, in %c : i1, out o : i8) {
  %0 = comb.concat %a, %b : i8, i8
  %1 = comb.extract %0 from 8 : (i16) -> i8
  hw.output %1 : i8
}
hw.module @q(in %a : i8, in %b : i8, in %c : i1, out o : i8) {
  hw.output %b : i8
}
// -----
// the low half of a concat of 8 bits, against the second operand
hw.module @p(in %a : i8, in %b : i8, in %c : i1, out o : i8) {
  %0 = comb.concat %a, %b : i8, i8
  %1 = comb.extract %0 from 0 : (i16) -> i8
  hw.output %1 : i8
}
hw.module @q(in %a : i8, in %b : i8, in %c : i1, out o : i8) {
  hw.output %b : i8
}
// -----
// the low half of a concat of 8 bits, against the first operand
hw.module @p(in %a : i8, in %b : i8, in %c : i1, out o : i8) {
  %0 = comb.concat %a, %b : i8, i8
  %1 = comb.extract %0 from 0 : (i16) -> i8
  hw.output %1 : i8
}
hw.module @q(in %a : i8, in %b : i8, in %c : i1, out o : i8) {
  hw.output %a : i8
}
// -----
// two copies of 8 bits, against a concat of the value with itself
hw.module @p(in %a : i8, in %b : i8, out o : i16) {
  %0 = comb.replicate %a : (i8) -> i16
  hw.output %0 : i16
}
hw.module @q(in %a : i8, in %b : i8, out o : i16) {
  %0 = comb.concat %a, %a : i8, i8
  hw.output %0 : i16
}
// -----
// two copies of 8 bits, against a concat with another value
hw.module @p(in %a : i8, in %b : i8, out o : i16) {
  %0 = comb.replicate %a : (i8) -> i16
  hw.output %0 : i16
}
hw.module @q(in %a : i8, in %b : i8, out o : i16) {
  %0 = comb.concat %a, %b : i8, i8
  hw.output %0 : i16
}
