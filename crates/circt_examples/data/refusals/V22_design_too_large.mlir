// V22: a module of too many instances of a large one
hw.module @S(in %x : !hw.array<1024xi1>, in %i : i10) {
  %0 = hw.array_slice %x[%i] : (!hw.array<1024xi1>) -> !hw.array<1024xi1>
  %1 = hw.array_slice %x[%i] : (!hw.array<1024xi1>) -> !hw.array<1024xi1>
  %2 = hw.array_slice %x[%i] : (!hw.array<1024xi1>) -> !hw.array<1024xi1>
  %3 = hw.array_slice %x[%i] : (!hw.array<1024xi1>) -> !hw.array<1024xi1>
  %4 = hw.array_slice %x[%i] : (!hw.array<1024xi1>) -> !hw.array<1024xi1>
  %5 = hw.array_slice %x[%i] : (!hw.array<1024xi1>) -> !hw.array<1024xi1>
  %6 = hw.array_slice %x[%i] : (!hw.array<1024xi1>) -> !hw.array<1024xi1>
  %7 = hw.array_slice %x[%i] : (!hw.array<1024xi1>) -> !hw.array<1024xi1>
}
hw.module @H(in %x : !hw.array<1024xi1>, in %i : i10) {
  hw.instance "u" @S(x: %x: !hw.array<1024xi1>, i: %i: i10) -> ()
  hw.instance "u" @S(x: %x: !hw.array<1024xi1>, i: %i: i10) -> ()
  hw.instance "u" @S(x: %x: !hw.array<1024xi1>, i: %i: i10) -> ()
  hw.instance "u" @S(x: %x: !hw.array<1024xi1>, i: %i: i10) -> ()
  hw.instance "u" @S(x: %x: !hw.array<1024xi1>, i: %i: i10) -> ()
  hw.instance "u" @S(x: %x: !hw.array<1024xi1>, i: %i: i10) -> ()
  hw.instance "u" @S(x: %x: !hw.array<1024xi1>, i: %i: i10) -> ()
  hw.instance "u" @S(x: %x: !hw.array<1024xi1>, i: %i: i10) -> ()
}
// -----
// V22: a module too large, after one with a cycle of values
hw.module @L(in %a : i8, out o : i8) {
  %0 = comb.and %0, %a : i8
  hw.output %0 : i8
}
hw.module @S(in %x : !hw.array<1024xi1>, in %i : i10) {
  %0 = hw.array_slice %x[%i] : (!hw.array<1024xi1>) -> !hw.array<1024xi1>
  %1 = hw.array_slice %x[%i] : (!hw.array<1024xi1>) -> !hw.array<1024xi1>
  %2 = hw.array_slice %x[%i] : (!hw.array<1024xi1>) -> !hw.array<1024xi1>
  %3 = hw.array_slice %x[%i] : (!hw.array<1024xi1>) -> !hw.array<1024xi1>
  %4 = hw.array_slice %x[%i] : (!hw.array<1024xi1>) -> !hw.array<1024xi1>
  %5 = hw.array_slice %x[%i] : (!hw.array<1024xi1>) -> !hw.array<1024xi1>
  %6 = hw.array_slice %x[%i] : (!hw.array<1024xi1>) -> !hw.array<1024xi1>
  %7 = hw.array_slice %x[%i] : (!hw.array<1024xi1>) -> !hw.array<1024xi1>
}
hw.module @H(in %x : !hw.array<1024xi1>, in %i : i10) {
  hw.instance "u" @S(x: %x: !hw.array<1024xi1>, i: %i: i10) -> ()
  hw.instance "u" @S(x: %x: !hw.array<1024xi1>, i: %i: i10) -> ()
  hw.instance "u" @S(x: %x: !hw.array<1024xi1>, i: %i: i10) -> ()
  hw.instance "u" @S(x: %x: !hw.array<1024xi1>, i: %i: i10) -> ()
  hw.instance "u" @S(x: %x: !hw.array<1024xi1>, i: %i: i10) -> ()
  hw.instance "u" @S(x: %x: !hw.array<1024xi1>, i: %i: i10) -> ()
  hw.instance "u" @S(x: %x: !hw.array<1024xi1>, i: %i: i10) -> ()
  hw.instance "u" @S(x: %x: !hw.array<1024xi1>, i: %i: i10) -> ()
}
// -----
// V22: the first of two modules too large, before one with a cycle of values
hw.module @S(in %x : !hw.array<1024xi1>, in %i : i10) {
  %0 = hw.array_slice %x[%i] : (!hw.array<1024xi1>) -> !hw.array<1024xi1>
  %1 = hw.array_slice %x[%i] : (!hw.array<1024xi1>) -> !hw.array<1024xi1>
  %2 = hw.array_slice %x[%i] : (!hw.array<1024xi1>) -> !hw.array<1024xi1>
  %3 = hw.array_slice %x[%i] : (!hw.array<1024xi1>) -> !hw.array<1024xi1>
  %4 = hw.array_slice %x[%i] : (!hw.array<1024xi1>) -> !hw.array<1024xi1>
  %5 = hw.array_slice %x[%i] : (!hw.array<1024xi1>) -> !hw.array<1024xi1>
  %6 = hw.array_slice %x[%i] : (!hw.array<1024xi1>) -> !hw.array<1024xi1>
  %7 = hw.array_slice %x[%i] : (!hw.array<1024xi1>) -> !hw.array<1024xi1>
}
hw.module @H(in %x : !hw.array<1024xi1>, in %i : i10) {
  hw.instance "u" @S(x: %x: !hw.array<1024xi1>, i: %i: i10) -> ()
  hw.instance "u" @S(x: %x: !hw.array<1024xi1>, i: %i: i10) -> ()
  hw.instance "u" @S(x: %x: !hw.array<1024xi1>, i: %i: i10) -> ()
  hw.instance "u" @S(x: %x: !hw.array<1024xi1>, i: %i: i10) -> ()
  hw.instance "u" @S(x: %x: !hw.array<1024xi1>, i: %i: i10) -> ()
  hw.instance "u" @S(x: %x: !hw.array<1024xi1>, i: %i: i10) -> ()
  hw.instance "u" @S(x: %x: !hw.array<1024xi1>, i: %i: i10) -> ()
  hw.instance "u" @S(x: %x: !hw.array<1024xi1>, i: %i: i10) -> ()
}
hw.module @I(in %x : !hw.array<1024xi1>, in %i : i10) {
  hw.instance "u" @S(x: %x: !hw.array<1024xi1>, i: %i: i10) -> ()
  hw.instance "u" @S(x: %x: !hw.array<1024xi1>, i: %i: i10) -> ()
  hw.instance "u" @S(x: %x: !hw.array<1024xi1>, i: %i: i10) -> ()
  hw.instance "u" @S(x: %x: !hw.array<1024xi1>, i: %i: i10) -> ()
  hw.instance "u" @S(x: %x: !hw.array<1024xi1>, i: %i: i10) -> ()
  hw.instance "u" @S(x: %x: !hw.array<1024xi1>, i: %i: i10) -> ()
  hw.instance "u" @S(x: %x: !hw.array<1024xi1>, i: %i: i10) -> ()
  hw.instance "u" @S(x: %x: !hw.array<1024xi1>, i: %i: i10) -> ()
}
hw.module @L(in %a : i8, out o : i8) {
  %0 = comb.and %0, %a : i8
  hw.output %0 : i8
}
// -----
// V22: modules that each have two of the one before, of which number 25 is too large
hw.module @M0(in %a : i1, out b : i1) {
  hw.output %a : i1
}
hw.module @M1(in %a : i1, out b : i1) {
  %u.b = hw.instance "u" @M0(a: %a: i1) -> (b: i1)
  %v.b = hw.instance "v" @M0(a: %u.b: i1) -> (b: i1)
  hw.output %v.b : i1
}
hw.module @M2(in %a : i1, out b : i1) {
  %u.b = hw.instance "u" @M1(a: %a: i1) -> (b: i1)
  %v.b = hw.instance "v" @M1(a: %u.b: i1) -> (b: i1)
  hw.output %v.b : i1
}
hw.module @M3(in %a : i1, out b : i1) {
  %u.b = hw.instance "u" @M2(a: %a: i1) -> (b: i1)
  %v.b = hw.instance "v" @M2(a: %u.b: i1) -> (b: i1)
  hw.output %v.b : i1
}
hw.module @M4(in %a : i1, out b : i1) {
  %u.b = hw.instance "u" @M3(a: %a: i1) -> (b: i1)
  %v.b = hw.instance "v" @M3(a: %u.b: i1) -> (b: i1)
  hw.output %v.b : i1
}
hw.module @M5(in %a : i1, out b : i1) {
  %u.b = hw.instance "u" @M4(a: %a: i1) -> (b: i1)
  %v.b = hw.instance "v" @M4(a: %u.b: i1) -> (b: i1)
  hw.output %v.b : i1
}
hw.module @M6(in %a : i1, out b : i1) {
  %u.b = hw.instance "u" @M5(a: %a: i1) -> (b: i1)
  %v.b = hw.instance "v" @M5(a: %u.b: i1) -> (b: i1)
  hw.output %v.b : i1
}
hw.module @M7(in %a : i1, out b : i1) {
  %u.b = hw.instance "u" @M6(a: %a: i1) -> (b: i1)
  %v.b = hw.instance "v" @M6(a: %u.b: i1) -> (b: i1)
  hw.output %v.b : i1
}
hw.module @M8(in %a : i1, out b : i1) {
  %u.b = hw.instance "u" @M7(a: %a: i1) -> (b: i1)
  %v.b = hw.instance "v" @M7(a: %u.b: i1) -> (b: i1)
  hw.output %v.b : i1
}
hw.module @M9(in %a : i1, out b : i1) {
  %u.b = hw.instance "u" @M8(a: %a: i1) -> (b: i1)
  %v.b = hw.instance "v" @M8(a: %u.b: i1) -> (b: i1)
  hw.output %v.b : i1
}
hw.module @M10(in %a : i1, out b : i1) {
  %u.b = hw.instance "u" @M9(a: %a: i1) -> (b: i1)
  %v.b = hw.instance "v" @M9(a: %u.b: i1) -> (b: i1)
  hw.output %v.b : i1
}
hw.module @M11(in %a : i1, out b : i1) {
  %u.b = hw.instance "u" @M10(a: %a: i1) -> (b: i1)
  %v.b = hw.instance "v" @M10(a: %u.b: i1) -> (b: i1)
  hw.output %v.b : i1
}
hw.module @M12(in %a : i1, out b : i1) {
  %u.b = hw.instance "u" @M11(a: %a: i1) -> (b: i1)
  %v.b = hw.instance "v" @M11(a: %u.b: i1) -> (b: i1)
  hw.output %v.b : i1
}
hw.module @M13(in %a : i1, out b : i1) {
  %u.b = hw.instance "u" @M12(a: %a: i1) -> (b: i1)
  %v.b = hw.instance "v" @M12(a: %u.b: i1) -> (b: i1)
  hw.output %v.b : i1
}
hw.module @M14(in %a : i1, out b : i1) {
  %u.b = hw.instance "u" @M13(a: %a: i1) -> (b: i1)
  %v.b = hw.instance "v" @M13(a: %u.b: i1) -> (b: i1)
  hw.output %v.b : i1
}
hw.module @M15(in %a : i1, out b : i1) {
  %u.b = hw.instance "u" @M14(a: %a: i1) -> (b: i1)
  %v.b = hw.instance "v" @M14(a: %u.b: i1) -> (b: i1)
  hw.output %v.b : i1
}
hw.module @M16(in %a : i1, out b : i1) {
  %u.b = hw.instance "u" @M15(a: %a: i1) -> (b: i1)
  %v.b = hw.instance "v" @M15(a: %u.b: i1) -> (b: i1)
  hw.output %v.b : i1
}
hw.module @M17(in %a : i1, out b : i1) {
  %u.b = hw.instance "u" @M16(a: %a: i1) -> (b: i1)
  %v.b = hw.instance "v" @M16(a: %u.b: i1) -> (b: i1)
  hw.output %v.b : i1
}
hw.module @M18(in %a : i1, out b : i1) {
  %u.b = hw.instance "u" @M17(a: %a: i1) -> (b: i1)
  %v.b = hw.instance "v" @M17(a: %u.b: i1) -> (b: i1)
  hw.output %v.b : i1
}
hw.module @M19(in %a : i1, out b : i1) {
  %u.b = hw.instance "u" @M18(a: %a: i1) -> (b: i1)
  %v.b = hw.instance "v" @M18(a: %u.b: i1) -> (b: i1)
  hw.output %v.b : i1
}
hw.module @M20(in %a : i1, out b : i1) {
  %u.b = hw.instance "u" @M19(a: %a: i1) -> (b: i1)
  %v.b = hw.instance "v" @M19(a: %u.b: i1) -> (b: i1)
  hw.output %v.b : i1
}
hw.module @M21(in %a : i1, out b : i1) {
  %u.b = hw.instance "u" @M20(a: %a: i1) -> (b: i1)
  %v.b = hw.instance "v" @M20(a: %u.b: i1) -> (b: i1)
  hw.output %v.b : i1
}
hw.module @M22(in %a : i1, out b : i1) {
  %u.b = hw.instance "u" @M21(a: %a: i1) -> (b: i1)
  %v.b = hw.instance "v" @M21(a: %u.b: i1) -> (b: i1)
  hw.output %v.b : i1
}
hw.module @M23(in %a : i1, out b : i1) {
  %u.b = hw.instance "u" @M22(a: %a: i1) -> (b: i1)
  %v.b = hw.instance "v" @M22(a: %u.b: i1) -> (b: i1)
  hw.output %v.b : i1
}
hw.module @M24(in %a : i1, out b : i1) {
  %u.b = hw.instance "u" @M23(a: %a: i1) -> (b: i1)
  %v.b = hw.instance "v" @M23(a: %u.b: i1) -> (b: i1)
  hw.output %v.b : i1
}
hw.module @M25(in %a : i1, out b : i1) {
  %u.b = hw.instance "u" @M24(a: %a: i1) -> (b: i1)
  %v.b = hw.instance "v" @M24(a: %u.b: i1) -> (b: i1)
  hw.output %v.b : i1
}
hw.module @M26(in %a : i1, out b : i1) {
  %u.b = hw.instance "u" @M25(a: %a: i1) -> (b: i1)
  %v.b = hw.instance "v" @M25(a: %u.b: i1) -> (b: i1)
  hw.output %v.b : i1
}
hw.module @M27(in %a : i1, out b : i1) {
  %u.b = hw.instance "u" @M26(a: %a: i1) -> (b: i1)
  %v.b = hw.instance "v" @M26(a: %u.b: i1) -> (b: i1)
  hw.output %v.b : i1
}
hw.module @M28(in %a : i1, out b : i1) {
  %u.b = hw.instance "u" @M27(a: %a: i1) -> (b: i1)
  %v.b = hw.instance "v" @M27(a: %u.b: i1) -> (b: i1)
  hw.output %v.b : i1
}
hw.module @M29(in %a : i1, out b : i1) {
  %u.b = hw.instance "u" @M28(a: %a: i1) -> (b: i1)
  %v.b = hw.instance "v" @M28(a: %u.b: i1) -> (b: i1)
  hw.output %v.b : i1
}
hw.module @M30(in %a : i1, out b : i1) {
  %u.b = hw.instance "u" @M29(a: %a: i1) -> (b: i1)
  %v.b = hw.instance "v" @M29(a: %u.b: i1) -> (b: i1)
  hw.output %v.b : i1
}
