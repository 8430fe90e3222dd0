// two pairs of modules for lec: p and q agree, r and s differ where a is 5
module {
  hw.module @p(in %a : i16, in %b : i16, in %c : i16, out o : i16) {
    %0 = comb.and %a, %b : i16
    %1 = comb.and %a, %c : i16
    %2 = comb.or %0, %1 : i16
    hw.output %2 : i16
  }
  hw.module @q(in %a : i16, in %b : i16, in %c : i16, out o : i16) {
    %0 = comb.or %b, %c : i16
    %1 = comb.and %a, %0 : i16
    hw.output %1 : i16
  }
  hw.module @r(in %a : i8, out o : i1) {
    %c5_i8 = hw.constant 5 : i8
    %0 = comb.icmp eq %a, %c5_i8 : i8
    hw.output %0 : i1
  }
  hw.module @s(in %a : i8, out o : i1) {
    %false = hw.constant false
    hw.output %false : i1
  }
}
