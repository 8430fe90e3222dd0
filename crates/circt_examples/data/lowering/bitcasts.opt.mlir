// 16 bits to an array of two: the first leaf has the highest bits
module {
  hw.module @T(in %x : i16, out o_1 : i8, out o_0 : i8) {
    %0 = comb.extract %x from 8 : (i16) -> i8
    %1 = comb.extract %x from 0 : (i16) -> i8
    hw.output %0, %1 : i8, i8
  }
}
// -----
// 5 bits to an array of five single bits
module {
  hw.module @T(in %x : i5, out o_4 : i1, out o_3 : i1, out o_2 : i1, out o_1 : i1, out o_0 : i1) {
    %0 = comb.extract %x from 4 : (i5) -> i1
    %1 = comb.extract %x from 3 : (i5) -> i1
    %2 = comb.extract %x from 2 : (i5) -> i1
    %3 = comb.extract %x from 1 : (i5) -> i1
    %4 = comb.extract %x from 0 : (i5) -> i1
    hw.output %0, %1, %2, %3, %4 : i1, i1, i1, i1, i1
  }
}
// -----
// 16 bits to a struct with an array in it: the last field is the least significant
module {
  hw.module @T(in %x : i16, out o_x : i3, out o_y_0 : i5, out o_z : i8) {
    %0 = comb.extract %x from 13 : (i16) -> i3
    %1 = comb.extract %x from 8 : (i16) -> i5
    %2 = comb.extract %x from 0 : (i16) -> i8
    hw.output %0, %1, %2 : i3, i5, i8
  }
}
// -----
// 8 bits to an array of one: one leaf of the whole width is an extract too
module {
  hw.module @T(in %x : i8, out o_0 : i8) {
    %0 = comb.extract %x from 0 : (i8) -> i8
    hw.output %0 : i8
  }
}
// -----
// a struct of one field to 8 bits
module {
  hw.module @T(in %s_x : i8, out o : i8) {
    %0 = comb.extract %s_x from 0 : (i8) -> i8
    hw.output %0 : i8
  }
}
// -----
// a struct of three fields to 16 bits
module {
  hw.module @T(in %s_x : i3, in %s_y : i5, in %s_z : i8, out o : i16) {
    %0 = comb.extract %s_x from 0 : (i3) -> i3
    %1 = comb.extract %s_y from 0 : (i5) -> i5
    %2 = comb.extract %s_z from 0 : (i8) -> i8
    %3 = comb.concat %0, %1, %2 : i3, i5, i8
    hw.output %3 : i16
  }
}
// -----
// an array of three single bits to 3 bits
module {
  hw.module @T(in %a_2 : i1, in %a_1 : i1, in %a_0 : i1, out o : i3) {
    %0 = comb.extract %a_2 from 0 : (i1) -> i1
    %1 = comb.extract %a_1 from 0 : (i1) -> i1
    %2 = comb.extract %a_0 from 0 : (i1) -> i1
    %3 = comb.concat %0, %1, %2 : i1, i1, i1
    hw.output %3 : i3
  }
}
// -----
// an array of two to a struct of the same leaves
module {
  hw.module @T(in %a_1 : i8, in %a_0 : i8, out o_p : i8, out o_q : i8) {
    %0 = comb.extract %a_1 from 0 : (i8) -> i8
    %1 = comb.extract %a_0 from 0 : (i8) -> i8
    hw.output %0, %1 : i8, i8
  }
}
// -----
// an array to its own type
module {
  hw.module @T(in %a_0 : i8, out o_0 : i8) {
    %0 = comb.extract %a_0 from 0 : (i8) -> i8
    hw.output %0 : i8
  }
}
// -----
// three leaves of 8 bits to two of 12, without a common boundary
module {
  hw.module @T(in %a_2 : i8, in %a_1 : i8, in %a_0 : i8, out o_1 : i12, out o_0 : i12) {
    %0 = comb.extract %a_2 from 0 : (i8) -> i8
    %1 = comb.extract %a_1 from 4 : (i8) -> i4
    %2 = comb.concat %0, %1 : i8, i4
    %3 = comb.extract %a_1 from 0 : (i8) -> i4
    %4 = comb.extract %a_0 from 0 : (i8) -> i8
    %5 = comb.concat %3, %4 : i4, i8
    hw.output %2, %5 : i12, i12
  }
}
// -----
// two leaves of 12 bits to three of 8: the middle one is of both
module {
  hw.module @T(in %a_1 : i12, in %a_0 : i12, out o_2 : i8, out o_1 : i8, out o_0 : i8) {
    %0 = comb.extract %a_1 from 4 : (i12) -> i8
    %1 = comb.extract %a_1 from 0 : (i12) -> i4
    %2 = comb.extract %a_0 from 8 : (i12) -> i4
    %3 = comb.concat %1, %2 : i4, i4
    %4 = comb.extract %a_0 from 0 : (i12) -> i8
    hw.output %0, %3, %4 : i8, i8, i8
  }
}
// -----
// a struct of 3, 5 and 8 bits to one of 7 and 9
module {
  hw.module @T(in %s_x : i3, in %s_y : i5, in %s_z : i8, out o_p : i7, out o_q : i9) {
    %0 = comb.extract %s_x from 0 : (i3) -> i3
    %1 = comb.extract %s_y from 1 : (i5) -> i4
    %2 = comb.concat %0, %1 : i3, i4
    %3 = comb.extract %s_y from 0 : (i5) -> i1
    %4 = comb.extract %s_z from 0 : (i8) -> i8
    %5 = comb.concat %3, %4 : i1, i8
    hw.output %2, %5 : i7, i9
  }
}
// -----
// 256 bits, wider than an integer: a leaf in the middle of a leaf
module {
  hw.module @T(in %a_1 : i128, in %a_0 : i128, out o_x : i100, out o_y : i64, out o_z : i92) {
    %0 = comb.extract %a_1 from 28 : (i128) -> i100
    %1 = comb.extract %a_1 from 0 : (i128) -> i28
    %2 = comb.extract %a_0 from 92 : (i128) -> i36
    %3 = comb.concat %1, %2 : i28, i36
    %4 = comb.extract %a_0 from 0 : (i128) -> i92
    hw.output %0, %3, %4 : i100, i64, i92
  }
}
