// add of one bit, against xor
hw.module @p(in %a : i1, in %b : i1, out o : i1) {
  %0 = comb.add %a, %b : i1
  hw.output %0 : i1
}
hw.module @q(in %a : i1, in %b : i1, out o : i1) {
  %0 = comb.xor %a, %b : i1
  hw.output %0 : i1
}
// -----
// mul of one bit, against and
hw.module @p(in %a : i1, in %b : i1, out o : i1) {
  %0 = comb.mul %a, %b : i1
  hw.output %0 : i1
}
hw.module @q(in %a : i1, in %b : i1, out o : i1) {
  %0 = comb.and %a, %b : i1
  hw.output %0 : i1
}
// -----
// sub of one bit, against xor
hw.module @p(in %a : i1, in %b : i1, out o : i1) {
  %0 = comb.sub %a, %b : i1
  hw.output %0 : i1
}
hw.module @q(in %a : i1, in %b : i1, out o : i1) {
  %0 = comb.xor %b, %a : i1
  hw.output %0 : i1
}
// -----
// sub of one bit, against or
hw.module @p(in %a : i1, in %b : i1, out o : i1) {
  %0 = comb.sub %a, %b : i1
  hw.output %0 : i1
}
hw.module @q(in %a : i1, in %b : i1, out o : i1) {
  %0 = comb.or %b, %a : i1
  hw.output %0 : i1
}
// -----
// divu and modu by 1 of one bit, against the value and 0
hw.module @p(in %a : i1, out o : i1, out p : i1) {
  %true = hw.constant true
  %0 = comb.divu %a, %true : i1
  %1 = comb.modu %a, %true : i1
  hw.output %0, %1 : i1, i1
}
hw.module @q(in %a : i1, out o : i1, out p : i1) {
  %false = hw.constant false
  hw.output %a, %false : i1, i1
}
// -----
// divs and mods by -1 of one bit, against the value and 0: -1 by -1 is 1, which is -1
hw.module @p(in %a : i1, out o : i1, out p : i1) {
  %true = hw.constant true
  %0 = comb.divs %a, %true : i1
  %1 = comb.mods %a, %true : i1
  hw.output %0, %1 : i1, i1
}
hw.module @q(in %a : i1, out o : i1, out p : i1) {
  %false = hw.constant false
  hw.output %a, %false : i1, i1
}
// -----
// mul by -3 of 3 bits, against four times and one more: -3 is 5
hw.module @p(in %a : i3, out o : i3) {
  %k = hw.constant -3 : i3
  %0 = comb.mul %a, %k : i3
  hw.output %0 : i3
}
hw.module @q(in %a : i3, out o : i3) {
  %k = hw.constant 2 : i3
  %0 = comb.shl %a, %k : i3
  %1 = comb.add %0, %a : i3
  hw.output %1 : i3
}
// -----
// sub of 3 bits, against a sum with the complement and 1
hw.module @p(in %a : i3, in %b : i3, out o : i3) {
  %0 = comb.sub %a, %b : i3
  hw.output %0 : i3
}
hw.module @q(in %a : i3, in %b : i3, out o : i3) {
  %ones = hw.constant -1 : i3
  %one = hw.constant 1 : i3
  %0 = comb.xor %b, %ones : i3
  %1 = comb.add %a, %0, %one : i3
  hw.output %1 : i3
}
// -----
// modu by 3 of 3 bits, against what divu and mul leave
hw.module @p(in %a : i3, out o : i3) {
  %k = hw.constant 3 : i3
  %0 = comb.modu %a, %k : i3
  hw.output %0 : i3
}
hw.module @q(in %a : i3, out o : i3) {
  %k = hw.constant 3 : i3
  %0 = comb.divu %a, %k : i3
  %1 = comb.mul %0, %k : i3
  %2 = comb.sub %a, %1 : i3
  hw.output %2 : i3
}
// -----
// shrs of 3 bits by a value, against a mux for each amount
hw.module @p(in %a : i3, in %b : i3, out o : i3) {
  %0 = comb.shrs %a, %b : i3
  hw.output %0 : i3
}
hw.module @q(in %a : i3, in %b : i3, out o : i3) {
  %zero = hw.constant 0 : i3
  %one = hw.constant 1 : i3
  %two = hw.constant 2 : i3
  %s = comb.extract %a from 2 : (i3) -> i1
  %h = comb.extract %a from 1 : (i3) -> i2
  %by1 = comb.concat %s, %h : i1, i2
  %by3 = comb.replicate %s : (i1) -> i3
  %e0 = comb.icmp eq %b, %zero : i3
  %e1 = comb.icmp eq %b, %one : i3
  %e2 = comb.icmp eq %b, %two : i3
  %by2 = comb.concat %s, %s, %s : i1, i1, i1
  %0 = comb.mux %e2, %by2, %by3 : i3
  %1 = comb.mux %e1, %by1, %0 : i3
  %2 = comb.mux %e0, %a, %1 : i3
  hw.output %2 : i3
}
// -----
// shru of 3 bits by a value, against shrs
hw.module @p(in %a : i3, in %b : i3, out o : i3) {
  %0 = comb.shru %a, %b : i3
  hw.output %0 : i3
}
hw.module @q(in %a : i3, in %b : i3, out o : i3) {
  %0 = comb.shrs %a, %b : i3
  hw.output %0 : i3
}
// -----
// shl of 3 bits by a value, against mul by a power of 2
hw.module @p(in %a : i3, in %b : i3, out o : i3) {
  %0 = comb.shl %a, %b : i3
  hw.output %0 : i3
}
hw.module @q(in %a : i3, in %b : i3, out o : i3) {
  %one = hw.constant 1 : i3
  %0 = comb.shl %one, %b : i3
  %1 = comb.mul %a, %0 : i3
  hw.output %1 : i3
}
// -----
// shru of 3 bits by a value, against its two low bits alone: an amount past the end counts
hw.module @p(in %a : i3, in %b : i3, out o : i3) {
  %0 = comb.shru %a, %b : i3
  hw.output %0 : i3
}
hw.module @q(in %a : i3, in %b : i3, out o : i3) {
  %k = hw.constant 3 : i3
  %c = comb.and %b, %k : i3
  %0 = comb.shru %a, %c : i3
  hw.output %0 : i3
}
// -----
// mul by 5 of 8 bits, against a shift and a sum
hw.module @p(in %a : i8, out o : i8) {
  %k = hw.constant 5 : i8
  %0 = comb.mul %a, %k : i8
  hw.output %0 : i8
}
hw.module @q(in %a : i8, out o : i8) {
  %k = hw.constant 2 : i8
  %0 = comb.shl %a, %k : i8
  %1 = comb.add %0, %a : i8
  hw.output %1 : i8
}
// -----
// mul by 5 of 8 bits, against a shift and an or
hw.module @p(in %a : i8, out o : i8) {
  %k = hw.constant 5 : i8
  %0 = comb.mul %a, %k : i8
  hw.output %0 : i8
}
hw.module @q(in %a : i8, out o : i8) {
  %k = hw.constant 2 : i8
  %0 = comb.shl %a, %k : i8
  %1 = comb.or %0, %a : i8
  hw.output %1 : i8
}
// -----
// divs and mods by -3 of 8 bits, against divu and modu of magnitudes
hw.module @p(in %a : i8, out o : i8, out p : i8) {
  %k = hw.constant -3 : i8
  %0 = comb.divs %a, %k : i8
  %1 = comb.mods %a, %k : i8
  hw.output %0, %1 : i8, i8
}
hw.module @q(in %a : i8, out o : i8, out p : i8) {
  %zero = hw.constant 0 : i8
  %three = hw.constant 3 : i8
  %neg = comb.icmp slt %a, %zero : i8
  %minus = comb.sub %zero, %a : i8
  %m = comb.mux %neg, %minus, %a : i8
  %q = comb.divu %m, %three : i8
  %r = comb.modu %m, %three : i8
  %nq = comb.sub %zero, %q : i8
  %nr = comb.sub %zero, %r : i8
  %0 = comb.mux %neg, %q, %nq : i8
  %1 = comb.mux %neg, %nr, %r : i8
  hw.output %0, %1 : i8, i8
}
// -----
// mods by -3 of 8 bits, against modu by 3: the remainder has the sign of what is divided
hw.module @p(in %a : i8, out p : i8) {
  %k = hw.constant -3 : i8
  %1 = comb.mods %a, %k : i8
  hw.output %1 : i8
}
hw.module @q(in %a : i8, out p : i8) {
  %k = hw.constant 3 : i8
  %1 = comb.modu %a, %k : i8
  hw.output %1 : i8
}
// -----
// divu by 16 of 8 bits, against shru by 4
hw.module @p(in %a : i8, out o : i8) {
  %k = hw.constant 16 : i8
  %0 = comb.divu %a, %k : i8
  hw.output %0 : i8
}
hw.module @q(in %a : i8, out o : i8) {
  %k = hw.constant 4 : i8
  %0 = comb.shru %a, %k : i8
  hw.output %0 : i8
}
// -----
// divs by 16 of 8 bits, against shrs by 4: towards zero, not down
hw.module @p(in %a : i8, out o : i8) {
  %k = hw.constant 16 : i8
  %0 = comb.divs %a, %k : i8
  hw.output %0 : i8
}
hw.module @q(in %a : i8, out o : i8) {
  %k = hw.constant 4 : i8
  %0 = comb.shrs %a, %k : i8
  hw.output %0 : i8
}
// -----
// add of three operands of 8 bits, against two sums in another order
hw.module @p(in %a : i8, in %b : i8, in %c : i8, out o : i8) {
  %0 = comb.add %a, %b, %c : i8
  hw.output %0 : i8
}
hw.module @q(in %a : i8, in %b : i8, in %c : i8, out o : i8) {
  %0 = comb.add %c, %b : i8
  %1 = comb.add %0, %a : i8
  hw.output %1 : i8
}
// -----
// sub of 8 bits, against sub of exchanged operands
hw.module @p(in %a : i8, in %b : i8, out o : i8) {
  %0 = comb.sub %a, %b : i8
  hw.output %0 : i8
}
hw.module @q(in %a : i8, in %b : i8, out o : i8) {
  %0 = comb.sub %b, %a : i8
  hw.output %0 : i8
}
