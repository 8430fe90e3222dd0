// array_slice of one element of one
module {
  hw.module @T(in %a_0 : i8, in %i : i1, out o_0 : i8) {
    %false = hw.constant false
    %0 = comb.icmp eq %i, %false : i1
    %c0_i8 = hw.constant 0 : i8
    %1 = comb.mux %0, %a_0, %c0_i8 : i8
    hw.output %1 : i8
  }
}
// -----
// array_slice of one element of two
module {
  hw.module @T(in %a_1 : i8, in %a_0 : i8, in %i : i1, out o_0 : i8) {
    %false = hw.constant false
    %0 = comb.icmp eq %i, %false : i1
    %true = hw.constant true
    %1 = comb.icmp eq %i, %true : i1
    %c0_i8 = hw.constant 0 : i8
    %2 = comb.mux %1, %a_1, %c0_i8 : i8
    %3 = comb.mux %0, %a_0, %2 : i8
    hw.output %3 : i8
  }
}
// -----
// array_slice of the whole array of two: the last test decides element 0 alone
module {
  hw.module @T(in %a_1 : i8, in %a_0 : i8, in %i : i1, out o_1 : i8, out o_0 : i8) {
    %false = hw.constant false
    %0 = comb.icmp eq %i, %false : i1
    %true = hw.constant true
    %1 = comb.icmp eq %i, %true : i1
    %c0_i8 = hw.constant 0 : i8
    %2 = comb.mux %0, %a_1, %c0_i8 : i8
    %c0_i8_0 = hw.constant 0 : i8
    %3 = comb.mux %1, %a_1, %c0_i8_0 : i8
    %4 = comb.mux %0, %a_0, %3 : i8
    hw.output %2, %4 : i8, i8
  }
}
// -----
// array_slice of two elements of three
module {
  hw.module @T(in %a_2 : i8, in %a_1 : i8, in %a_0 : i8, in %i : i2, out o_1 : i8, out o_0 : i8) {
    %c0_i2 = hw.constant 0 : i2
    %0 = comb.icmp eq %i, %c0_i2 : i2
    %c1_i2 = hw.constant 1 : i2
    %1 = comb.icmp eq %i, %c1_i2 : i2
    %c-2_i2 = hw.constant -2 : i2
    %2 = comb.icmp eq %i, %c-2_i2 : i2
    %c0_i8 = hw.constant 0 : i8
    %3 = comb.mux %1, %a_2, %c0_i8 : i8
    %4 = comb.mux %0, %a_1, %3 : i8
    %c0_i8_0 = hw.constant 0 : i8
    %5 = comb.mux %2, %a_2, %c0_i8_0 : i8
    %6 = comb.mux %1, %a_1, %5 : i8
    %7 = comb.mux %0, %a_0, %6 : i8
    hw.output %4, %7 : i8, i8
  }
}
// -----
// array_slice of three elements of five
module {
  hw.module @T(in %a_4 : i4, in %a_3 : i4, in %a_2 : i4, in %a_1 : i4, in %a_0 : i4, in %i : i3, out o_2 : i4, out o_1 : i4, out o_0 : i4) {
    %c0_i3 = hw.constant 0 : i3
    %0 = comb.icmp eq %i, %c0_i3 : i3
    %c1_i3 = hw.constant 1 : i3
    %1 = comb.icmp eq %i, %c1_i3 : i3
    %c2_i3 = hw.constant 2 : i3
    %2 = comb.icmp eq %i, %c2_i3 : i3
    %c3_i3 = hw.constant 3 : i3
    %3 = comb.icmp eq %i, %c3_i3 : i3
    %c-4_i3 = hw.constant -4 : i3
    %4 = comb.icmp eq %i, %c-4_i3 : i3
    %c0_i4 = hw.constant 0 : i4
    %5 = comb.mux %2, %a_4, %c0_i4 : i4
    %6 = comb.mux %1, %a_3, %5 : i4
    %7 = comb.mux %0, %a_2, %6 : i4
    %c0_i4_0 = hw.constant 0 : i4
    %8 = comb.mux %3, %a_4, %c0_i4_0 : i4
    %9 = comb.mux %2, %a_3, %8 : i4
    %10 = comb.mux %1, %a_2, %9 : i4
    %11 = comb.mux %0, %a_1, %10 : i4
    %c0_i4_1 = hw.constant 0 : i4
    %12 = comb.mux %4, %a_4, %c0_i4_1 : i4
    %13 = comb.mux %3, %a_3, %12 : i4
    %14 = comb.mux %2, %a_2, %13 : i4
    %15 = comb.mux %1, %a_1, %14 : i4
    %16 = comb.mux %0, %a_0, %15 : i4
    hw.output %7, %11, %16 : i4, i4, i4
  }
}
// -----
// array_slice of elements of two leaves
module {
  hw.module @T(in %a_1_x : i8, in %a_1_y : i4, in %a_0_x : i8, in %a_0_y : i4, in %i : i1, out o_1_x : i8, out o_1_y : i4, out o_0_x : i8, out o_0_y : i4) {
    %false = hw.constant false
    %0 = comb.icmp eq %i, %false : i1
    %true = hw.constant true
    %1 = comb.icmp eq %i, %true : i1
    %c0_i8 = hw.constant 0 : i8
    %2 = comb.mux %0, %a_1_x, %c0_i8 : i8
    %c0_i4 = hw.constant 0 : i4
    %3 = comb.mux %0, %a_1_y, %c0_i4 : i4
    %c0_i8_0 = hw.constant 0 : i8
    %4 = comb.mux %1, %a_1_x, %c0_i8_0 : i8
    %5 = comb.mux %0, %a_0_x, %4 : i8
    %c0_i4_0 = hw.constant 0 : i4
    %6 = comb.mux %1, %a_1_y, %c0_i4_0 : i4
    %7 = comb.mux %0, %a_0_y, %6 : i4
    hw.output %2, %3, %5, %7 : i8, i4, i8, i4
  }
}
