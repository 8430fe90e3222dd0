// array_get of one element: its test, and else zero
module {
  hw.module @T(in %a_0 : i8, in %i : i1, out o : i8) {
    %false = hw.constant false
    %0 = comb.icmp eq %i, %false : i1
    %c0_i8 = hw.constant 0 : i8
    %1 = comb.mux %0, %a_0, %c0_i8 : i8
    hw.output %1 : i8
  }
}
// -----
// array_get of two elements: the first test is the outermost, and the last choice is zero
module {
  hw.module @T(in %a_1 : i8, in %a_0 : i8, in %i : i1, out o : i8) {
    %false = hw.constant false
    %0 = comb.icmp eq %i, %false : i1
    %true = hw.constant true
    %1 = comb.icmp eq %i, %true : i1
    %c0_i8 = hw.constant 0 : i8
    %2 = comb.mux %1, %a_1, %c0_i8 : i8
    %3 = comb.mux %0, %a_0, %2 : i8
    hw.output %3 : i8
  }
}
// -----
// array_get of three elements of the index's type: the zero has the name of its first constant and a number
module {
  hw.module @T(in %a_2 : i2, in %a_1 : i2, in %a_0 : i2, in %i : i2, out o : i2) {
    %c0_i2 = hw.constant 0 : i2
    %0 = comb.icmp eq %i, %c0_i2 : i2
    %c1_i2 = hw.constant 1 : i2
    %1 = comb.icmp eq %i, %c1_i2 : i2
    %c-2_i2 = hw.constant -2 : i2
    %2 = comb.icmp eq %i, %c-2_i2 : i2
    %c0_i2_0 = hw.constant 0 : i2
    %3 = comb.mux %2, %a_2, %c0_i2_0 : i2
    %4 = comb.mux %1, %a_1, %3 : i2
    %5 = comb.mux %0, %a_0, %4 : i2
    hw.output %5 : i2
  }
}
// -----
// array_get of five single bits
module {
  hw.module @T(in %a_4 : i1, in %a_3 : i1, in %a_2 : i1, in %a_1 : i1, in %a_0 : i1, in %i : i3, out o : i1) {
    %c0_i3 = hw.constant 0 : i3
    %0 = comb.icmp eq %i, %c0_i3 : i3
    %c1_i3 = hw.constant 1 : i3
    %1 = comb.icmp eq %i, %c1_i3 : i3
    %c2_i3 = hw.constant 2 : i3
    %2 = comb.icmp eq %i, %c2_i3 : i3
    %c3_i3 = hw.constant 3 : i3
    %3 = comb.icmp eq %i, %c3_i3 : i3
    %c-4_i3 = hw.constant -4 : i3
    %4 = comb.icmp eq %i, %c-4_i3 : i3
    %false = hw.constant false
    %5 = comb.mux %4, %a_4, %false : i1
    %6 = comb.mux %3, %a_3, %5 : i1
    %7 = comb.mux %2, %a_2, %6 : i1
    %8 = comb.mux %1, %a_1, %7 : i1
    %9 = comb.mux %0, %a_0, %8 : i1
    hw.output %9 : i1
  }
}
// -----
// array_get of elements of two leaves: they share the tests, and each has a zero of its own
module {
  hw.module @T(in %a_1_x : i8, in %a_1_y : i4, in %a_0_x : i8, in %a_0_y : i4, in %i : i1, out o_x : i8, out o_y : i4) {
    %false = hw.constant false
    %0 = comb.icmp eq %i, %false : i1
    %true = hw.constant true
    %1 = comb.icmp eq %i, %true : i1
    %c0_i8 = hw.constant 0 : i8
    %2 = comb.mux %1, %a_1_x, %c0_i8 : i8
    %3 = comb.mux %0, %a_0_x, %2 : i8
    %c0_i4 = hw.constant 0 : i4
    %4 = comb.mux %1, %a_1_y, %c0_i4 : i4
    %5 = comb.mux %0, %a_0_y, %4 : i4
    hw.output %3, %5 : i8, i4
  }
}
// -----
// array_get of an element that is an array: its highest leaf comes first
module {
  hw.module @T(in %a_0_1 : i8, in %a_0_0 : i8, in %i : i1, out o_1 : i8, out o_0 : i8) {
    %false = hw.constant false
    %0 = comb.icmp eq %i, %false : i1
    %c0_i8 = hw.constant 0 : i8
    %1 = comb.mux %0, %a_0_1, %c0_i8 : i8
    %c0_i8_0 = hw.constant 0 : i8
    %2 = comb.mux %0, %a_0_0, %c0_i8_0 : i8
    hw.output %1, %2 : i8, i8
  }
}
// -----
// array_inject of one element: one mux with its test
module {
  hw.module @T(in %a_0 : i8, in %i : i1, in %v : i8, out o_0 : i8) {
    %false = hw.constant false
    %0 = comb.icmp eq %i, %false : i1
    %1 = comb.mux %0, %v, %a_0 : i8
    hw.output %1 : i8
  }
}
// -----
// array_inject of two elements: the highest comes first
module {
  hw.module @T(in %a_1 : i8, in %a_0 : i8, in %i : i1, in %v : i8, out o_1 : i8, out o_0 : i8) {
    %false = hw.constant false
    %0 = comb.icmp eq %i, %false : i1
    %true = hw.constant true
    %1 = comb.icmp eq %i, %true : i1
    %2 = comb.mux %1, %v, %a_1 : i8
    %3 = comb.mux %0, %v, %a_0 : i8
    hw.output %2, %3 : i8, i8
  }
}
// -----
// array_inject of three elements
module {
  hw.module @T(in %a_2 : i8, in %a_1 : i8, in %a_0 : i8, in %i : i2, in %v : i8, out o_2 : i8, out o_1 : i8, out o_0 : i8) {
    %c0_i2 = hw.constant 0 : i2
    %0 = comb.icmp eq %i, %c0_i2 : i2
    %c1_i2 = hw.constant 1 : i2
    %1 = comb.icmp eq %i, %c1_i2 : i2
    %c-2_i2 = hw.constant -2 : i2
    %2 = comb.icmp eq %i, %c-2_i2 : i2
    %3 = comb.mux %2, %v, %a_2 : i8
    %4 = comb.mux %1, %v, %a_1 : i8
    %5 = comb.mux %0, %v, %a_0 : i8
    hw.output %3, %4, %5 : i8, i8, i8
  }
}
// -----
// array_inject of five elements of 2 bits
module {
  hw.module @T(in %a_4 : i2, in %a_3 : i2, in %a_2 : i2, in %a_1 : i2, in %a_0 : i2, in %i : i3, in %v : i2, out o_4 : i2, out o_3 : i2, out o_2 : i2, out o_1 : i2, out o_0 : i2) {
    %c0_i3 = hw.constant 0 : i3
    %0 = comb.icmp eq %i, %c0_i3 : i3
    %c1_i3 = hw.constant 1 : i3
    %1 = comb.icmp eq %i, %c1_i3 : i3
    %c2_i3 = hw.constant 2 : i3
    %2 = comb.icmp eq %i, %c2_i3 : i3
    %c3_i3 = hw.constant 3 : i3
    %3 = comb.icmp eq %i, %c3_i3 : i3
    %c-4_i3 = hw.constant -4 : i3
    %4 = comb.icmp eq %i, %c-4_i3 : i3
    %5 = comb.mux %4, %v, %a_4 : i2
    %6 = comb.mux %3, %v, %a_3 : i2
    %7 = comb.mux %2, %v, %a_2 : i2
    %8 = comb.mux %1, %v, %a_1 : i2
    %9 = comb.mux %0, %v, %a_0 : i2
    hw.output %5, %6, %7, %8, %9 : i2, i2, i2, i2, i2
  }
}
// -----
// array_inject of elements of two leaves, which share the test of their element
module {
  hw.module @T(in %a_1_x : i8, in %a_1_y : i4, in %a_0_x : i8, in %a_0_y : i4, in %i : i1, in %v_x : i8, in %v_y : i4, out o_1_x : i8, out o_1_y : i4, out o_0_x : i8, out o_0_y : i4) {
    %false = hw.constant false
    %0 = comb.icmp eq %i, %false : i1
    %true = hw.constant true
    %1 = comb.icmp eq %i, %true : i1
    %2 = comb.mux %1, %v_x, %a_1_x : i8
    %3 = comb.mux %1, %v_y, %a_1_y : i4
    %4 = comb.mux %0, %v_x, %a_0_x : i8
    %5 = comb.mux %0, %v_y, %a_0_y : i4
    hw.output %2, %3, %4, %5 : i8, i4, i8, i4
  }
}
