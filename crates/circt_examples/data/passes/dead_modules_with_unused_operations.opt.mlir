// an instance whose results nothing uses keeps its module, and operations stay as they are
module {
  hw.module @T(in %a : i8, out o : i8) {
    %u.o = hw.instance "u" @C(a: %a: i8) -> (o: i8)
    %0 = comb.add %a, %a : i8
    hw.output %a : i8
  }
  hw.module private @C(in %a : i8, out o : i8) {
    hw.output %a : i8
  }
}
