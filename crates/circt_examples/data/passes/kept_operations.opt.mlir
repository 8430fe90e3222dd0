// operations that differ in kind, in the order and in the number of operands
module {
  hw.module @T(in %a : i8, in %b : i8, out o : i8, out p : i8, out q : i8, out r : i8) {
    %0 = comb.add %a, %b : i8
    %1 = comb.add %b, %a : i8
    %2 = comb.mul %a, %b : i8
    %3 = comb.add %a, %b, %b : i8
    hw.output %0, %1, %2, %3 : i8, i8, i8, i8
  }
}
// -----
// comparisons that differ in the predicate, `ceq` and `eq` too
module {
  hw.module @T(in %a : i8, in %b : i8, out o : i1, out p : i1, out q : i1, out r : i1, out s : i1) {
    %0 = comb.icmp eq %a, %b : i8
    %1 = comb.icmp ceq %a, %b : i8
    %2 = comb.icmp weq %a, %b : i8
    %3 = comb.icmp ult %a, %b : i8
    %4 = comb.icmp slt %a, %b : i8
    hw.output %0, %1, %2, %3, %4 : i1, i1, i1, i1, i1
  }
}
// -----
// extracts that differ in the bits
module {
  hw.module @T(in %a : i8, out o : i4, out p : i4, out q : i2) {
    %0 = comb.extract %a from 0 : (i8) -> i4
    %1 = comb.extract %a from 4 : (i8) -> i4
    %2 = comb.extract %a from 0 : (i8) -> i2
    hw.output %0, %1, %2 : i4, i4, i2
  }
}
// -----
// constants that differ in the type or in the number
module {
  hw.module @T(out o : i8, out p : i9, out q : i8) {
    %c5_i8 = hw.constant 5 : i8
    %c5_i9 = hw.constant 5 : i9
    %c6_i8 = hw.constant 6 : i8
    hw.output %c5_i8, %c5_i9, %c6_i8 : i8, i9, i8
  }
}
// -----
// copies that differ in their number
module {
  hw.module @T(in %a : i8, out o : i16, out p : i24) {
    %0 = comb.replicate %a : (i8) -> i16
    %1 = comb.replicate %a : (i8) -> i24
    hw.output %0, %1 : i16, i24
  }
}
// -----
// parts that differ in the field
module {
  hw.module @T(in %s : !hw.struct<x: i8, y: i8>, out o : i8, out p : i8) {
    %0 = hw.struct_extract %s["x"] : !hw.struct<x: i8, y: i8>
    %1 = hw.struct_extract %s["y"] : !hw.struct<x: i8, y: i8>
    hw.output %0, %1 : i8, i8
  }
}
// -----
// sums of different results of one operation
module {
  hw.module @T(in %s : !hw.struct<x: i8, y: i8>, in %a : i8, out o : i8, out p : i8) {
    %0:2 = hw.struct_explode %s : !hw.struct<x: i8, y: i8>
    %1 = comb.add %0#0, %a : i8
    %2 = comb.add %0#1, %a : i8
    hw.output %1, %2 : i8, i8
  }
}
// -----
// shifts and quotients with and without sign
module {
  hw.module @T(in %a : i8, in %b : i8, out o : i8, out p : i8, out q : i8, out r : i8) {
    %c3_i8 = hw.constant 3 : i8
    %0 = comb.shru %a, %b : i8
    %1 = comb.shrs %a, %b : i8
    %2 = comb.divu %a, %c3_i8 : i8
    %3 = comb.divs %a, %c3_i8 : i8
    hw.output %0, %1, %2, %3 : i8, i8, i8, i8
  }
}
// -----
// equal registers both stay, and unused ones
module {
  hw.module @T(in %clk : !seq.clock, in %d : i1, out o : i1, out p : i1) {
    %r = seq.compreg %d, %clk : i1
    %s = seq.compreg %d, %clk : i1
    %t = seq.compreg %d, %clk : i1
    hw.output %r, %s : i1, i1
  }
}
// -----
// equal wires both stay, and unused ones
module {
  hw.module @T(in %a : i8, out o : i8, out p : i8) {
    %w = hw.wire %a : i8
    %x = hw.wire %a : i8
    %y = hw.wire %a : i8
    hw.output %w, %x : i8, i8
  }
}
// -----
// equal instances both stay, and unused ones
module {
  hw.module @T(in %a : i8, out o : i8, out p : i8) {
    %u.o = hw.instance "u" @U(a: %a: i8) -> (o: i8)
    %v.o = hw.instance "v" @U(a: %a: i8) -> (o: i8)
    %w.o = hw.instance "w" @U(a: %a: i8) -> (o: i8)
    hw.output %u.o, %v.o : i8, i8
  }
  hw.module @U(in %a : i8, out o : i8) {
    hw.output %a : i8
  }
}
