// and, or keep each operand once, in the order of the first ones
module {
  hw.module @T(in %a : i8, in %b : i8, out o : i8, out p : i8, out q : i8) {
    %0 = comb.and %a, %b : i8
    %1 = comb.or %b, %a {k} : i8
    hw.output %0, %1, %a : i8, i8, i8
  }
}
// -----
// or, and keep each operand once, at 1 and 128 bits
module {
  hw.module @T(in %a : i1, in %b : i128, in %c : i128, out o : i1, out p : i128) {
    %0 = comb.and %b, %c : i128
    hw.output %a, %0 : i1, i128
  }
}
// -----
// and of results of one operation of several, one of them twice
module {
  hw.module @T(in %s : !hw.struct<x: i8, y: i8>, out o : i8) {
    %0:2 = hw.struct_explode %s : !hw.struct<x: i8, y: i8>
    %1 = comb.and %0#0, %0#1 : i8
    hw.output %1 : i8
  }
}
// -----
// add, mul keep equal operands
module {
  hw.module @T(in %a : i8, in %b : i8, out o : i8, out p : i8, out q : i8) {
    %0 = comb.add %a, %b, %a : i8
    %1 = comb.mul %a, %a, %a : i8
    %2 = comb.and %a, %b : i8
    hw.output %0, %1, %2 : i8, i8, i8
  }
}
// -----
// xor drops two equal operands, and 0 is left of two
module {
  hw.module @T(in %a : i8, in %b : i8, in %c : i8, out o : i8, out p : i8, out q : i8, out r : i8, out s : i8) {
    %c0_i8 = hw.constant 0 : i8
    %c0_i8_0 = hw.constant 0 : i8
    %0 = comb.xor %b, %c {k} : i8
    hw.output %c0_i8, %b, %a, %c0_i8_0, %0 : i8, i8, i8, i8, i8
  }
}
// -----
// xor of two and of three equal operands, at 1 and 128 bits
module {
  hw.module @T(in %a : i1, in %b : i128, out o : i1, out p : i128, out q : i1) {
    %false = hw.constant false
    %c0_i128 = hw.constant 0 : i128
    hw.output %false, %c0_i128, %a : i1, i128, i1
  }
}
// -----
// xor stays: two results of one operation, and two values
module {
  hw.module @T(in %a : i8, in %b : i8, in %s : !hw.struct<x: i8, y: i8>, out o : i8, out p : i8) {
    %0:2 = hw.struct_explode %s : !hw.struct<x: i8, y: i8>
    %1 = comb.xor %0#0, %0#1 : i8
    %2 = comb.xor %a, %b : i8
    hw.output %1, %2 : i8, i8
  }
}
