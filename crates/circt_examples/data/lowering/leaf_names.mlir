// RUN: circt opt --hw-lower-aggregates
// an integer's name is taken by a leaf before it
module {
  hw.module @T(in %a : !hw.array<2xi8>, in %a_0 : i8, out o : i8) {
    hw.output %a_0 : i8
  }
}
// -----
// a leaf's name is taken by an integer before it
module {
  hw.module @T(in %a_0 : i8, in %a : !hw.array<2xi8>, out o : i8) {
    hw.output %a_0 : i8
  }
}
// -----
// names with numbers that are taken too
module {
  hw.module @T(in %s : !hw.struct<x: i1>, in %s_x_0 : i1, in %s_x : i1, in %s_x_1 : i1, out o : i1) {
    %0 = comb.add %s_x_0, %s_x, %s_x_1 : i1
    hw.output %0 : i1
  }
}
// -----
// an output beside an input
module {
  hw.module @T(in %a : !hw.array<1xi8>, out a_0 : i8, out a_ : !hw.array<1xi8>) {
    %c0_i1 = hw.constant false
    %0 = hw.array_get %a[%c0_i1] : !hw.array<1xi8>, i1
    hw.output %0, %a : i8, !hw.array<1xi8>
  }
}
// -----
// two levels that spell one name
module {
  hw.module @T(in %a : !hw.struct<b_c: i8, b: !hw.struct<c: i8, c_0: i8>>, out o : i8) {
    %0 = hw.struct_extract %a["b_c"] : !hw.struct<b_c: i8, b: !hw.struct<c: i8, c_0: i8>>
    %1 = hw.struct_extract %a["b"] : !hw.struct<b_c: i8, b: !hw.struct<c: i8, c_0: i8>>
    %2:2 = hw.struct_explode %1 : !hw.struct<c: i8, c_0: i8>
    %3 = comb.add %0, %2#0, %2#1 : i8
    hw.output %3 : i8
  }
}
// -----
// a port without a name, and names that are no values' names
module {
  hw.module @T(in %a "" : !hw.struct<x: i8>, in %b "b b" : !hw.struct<"y y": i8, z: i8>, out "o o" : !hw.array<1xi8>) {
    %0 = hw.struct_extract %b["z"] : !hw.struct<"y y": i8, z: i8>
    %1 = hw.array_create %0 : i8
    hw.output %1 : !hw.array<1xi8>
  }
}
// -----
// a wire and a register of the port's name: their leaves keep it, and their values have other ones
module {
  hw.module @T(in %clk : !seq.clock, in %a : !hw.array<2xi8>) {
    %w = hw.wire %a {name = "a"} : !hw.array<2xi8>
    %r = seq.compreg %w, %clk {name = "a"} : !hw.array<2xi8>
    hw.output
  }
}
// -----
// an array of eleven elements, of two digits, and a clock
module {
  hw.module @T(in %clk : !seq.clock, in %a : !hw.array<11xi1>) {
    hw.output
  }
}
