// modules that double, the last of them below the limit on weight
module {
  hw.module @M0(in %a : i1, in %b : i1, out o : i1) {
    hw.output %a : i1
  }
  hw.module @M1(in %a : i1, in %b : i1, out o : i1) {
    %u.o = hw.instance "u" @M0(a: %a: i1, b: %b: i1) -> (o: i1)
    %v.o = hw.instance "v" @M0(a: %u.o: i1, b: %b: i1) -> (o: i1)
    hw.output %v.o : i1
  }
  hw.module @M2(in %a : i1, in %b : i1, out o : i1) {
    %u.o = hw.instance "u" @M1(a: %a: i1, b: %b: i1) -> (o: i1)
    %v.o = hw.instance "v" @M1(a: %u.o: i1, b: %b: i1) -> (o: i1)
    hw.output %v.o : i1
  }
  hw.module @M3(in %a : i1, in %b : i1, out o : i1) {
    %u.o = hw.instance "u" @M2(a: %a: i1, b: %b: i1) -> (o: i1)
    %v.o = hw.instance "v" @M2(a: %u.o: i1, b: %b: i1) -> (o: i1)
    hw.output %v.o : i1
  }
  hw.module @M4(in %a : i1, in %b : i1, out o : i1) {
    %u.o = hw.instance "u" @M3(a: %a: i1, b: %b: i1) -> (o: i1)
    %v.o = hw.instance "v" @M3(a: %u.o: i1, b: %b: i1) -> (o: i1)
    hw.output %v.o : i1
  }
  hw.module @M5(in %a : i1, in %b : i1, out o : i1) {
    %u.o = hw.instance "u" @M4(a: %a: i1, b: %b: i1) -> (o: i1)
    %v.o = hw.instance "v" @M4(a: %u.o: i1, b: %b: i1) -> (o: i1)
    hw.output %v.o : i1
  }
  hw.module @M6(in %a : i1, in %b : i1, out o : i1) {
    %u.o = hw.instance "u" @M5(a: %a: i1, b: %b: i1) -> (o: i1)
    %v.o = hw.instance "v" @M5(a: %u.o: i1, b: %b: i1) -> (o: i1)
    hw.output %v.o : i1
  }
  hw.module @M7(in %a : i1, in %b : i1, out o : i1) {
    %u.o = hw.instance "u" @M6(a: %a: i1, b: %b: i1) -> (o: i1)
    %v.o = hw.instance "v" @M6(a: %u.o: i1, b: %b: i1) -> (o: i1)
    hw.output %v.o : i1
  }
  hw.module @M8(in %a : i1, in %b : i1, out o : i1) {
    %u.o = hw.instance "u" @M7(a: %a: i1, b: %b: i1) -> (o: i1)
    %v.o = hw.instance "v" @M7(a: %u.o: i1, b: %b: i1) -> (o: i1)
    hw.output %v.o : i1
  }
  hw.module @M9(in %a : i1, in %b : i1, out o : i1) {
    %u.o = hw.instance "u" @M8(a: %a: i1, b: %b: i1) -> (o: i1)
    %v.o = hw.instance "v" @M8(a: %u.o: i1, b: %b: i1) -> (o: i1)
    hw.output %v.o : i1
  }
  hw.module @M10(in %a : i1, in %b : i1, out o : i1) {
    %u.o = hw.instance "u" @M9(a: %a: i1, b: %b: i1) -> (o: i1)
    %v.o = hw.instance "v" @M9(a: %u.o: i1, b: %b: i1) -> (o: i1)
    hw.output %v.o : i1
  }
  hw.module @M11(in %a : i1, in %b : i1, out o : i1) {
    %u.o = hw.instance "u" @M10(a: %a: i1, b: %b: i1) -> (o: i1)
    %v.o = hw.instance "v" @M10(a: %u.o: i1, b: %b: i1) -> (o: i1)
    hw.output %v.o : i1
  }
  hw.module @M12(in %a : i1, in %b : i1, out o : i1) {
    %u.o = hw.instance "u" @M11(a: %a: i1, b: %b: i1) -> (o: i1)
    %v.o = hw.instance "v" @M11(a: %u.o: i1, b: %b: i1) -> (o: i1)
    hw.output %v.o : i1
  }
  hw.module @M13(in %a : i1, in %b : i1, out o : i1) {
    %u.o = hw.instance "u" @M12(a: %a: i1, b: %b: i1) -> (o: i1)
    %v.o = hw.instance "v" @M12(a: %u.o: i1, b: %b: i1) -> (o: i1)
    hw.output %v.o : i1
  }
  hw.module @M14(in %a : i1, in %b : i1, out o : i1) {
    %u.o = hw.instance "u" @M13(a: %a: i1, b: %b: i1) -> (o: i1)
    %v.o = hw.instance "v" @M13(a: %u.o: i1, b: %b: i1) -> (o: i1)
    hw.output %v.o : i1
  }
  hw.module @M15(in %a : i1, in %b : i1, out o : i1) {
    %u.o = hw.instance "u" @M14(a: %a: i1, b: %b: i1) -> (o: i1)
    %v.o = hw.instance "v" @M14(a: %u.o: i1, b: %b: i1) -> (o: i1)
    hw.output %v.o : i1
  }
  hw.module @M16(in %a : i1, in %b : i1, out o : i1) {
    %u.o = hw.instance "u" @M15(a: %a: i1, b: %b: i1) -> (o: i1)
    %v.o = hw.instance "v" @M15(a: %u.o: i1, b: %b: i1) -> (o: i1)
    hw.output %v.o : i1
  }
  hw.module @M17(in %a : i1, in %b : i1, out o : i1) {
    %u.o = hw.instance "u" @M16(a: %a: i1, b: %b: i1) -> (o: i1)
    %v.o = hw.instance "v" @M16(a: %u.o: i1, b: %b: i1) -> (o: i1)
    hw.output %v.o : i1
  }
  hw.module @M18(in %a : i1, in %b : i1, out o : i1) {
    %u.o = hw.instance "u" @M17(a: %a: i1, b: %b: i1) -> (o: i1)
    %v.o = hw.instance "v" @M17(a: %u.o: i1, b: %b: i1) -> (o: i1)
    hw.output %v.o : i1
  }
  hw.module @M19(in %a : i1, in %b : i1, out o : i1) {
    %u.o = hw.instance "u" @M18(a: %a: i1, b: %b: i1) -> (o: i1)
    %v.o = hw.instance "v" @M18(a: %u.o: i1, b: %b: i1) -> (o: i1)
    hw.output %v.o : i1
  }
  hw.module @M20(in %a : i1, in %b : i1, out o : i1) {
    %u.o = hw.instance "u" @M19(a: %a: i1, b: %b: i1) -> (o: i1)
    %v.o = hw.instance "v" @M19(a: %u.o: i1, b: %b: i1) -> (o: i1)
    hw.output %v.o : i1
  }
  hw.module @M21(in %a : i1, in %b : i1, out o : i1) {
    %u.o = hw.instance "u" @M20(a: %a: i1, b: %b: i1) -> (o: i1)
    %v.o = hw.instance "v" @M20(a: %u.o: i1, b: %b: i1) -> (o: i1)
    hw.output %v.o : i1
  }
  hw.module @M22(in %a : i1, in %b : i1, out o : i1) {
    %u.o = hw.instance "u" @M21(a: %a: i1, b: %b: i1) -> (o: i1)
    %v.o = hw.instance "v" @M21(a: %u.o: i1, b: %b: i1) -> (o: i1)
    hw.output %v.o : i1
  }
  hw.module @M23(in %a : i1, in %b : i1, out o : i1) {
    %u.o = hw.instance "u" @M22(a: %a: i1, b: %b: i1) -> (o: i1)
    %v.o = hw.instance "v" @M22(a: %u.o: i1, b: %b: i1) -> (o: i1)
    hw.output %v.o : i1
  }
}
