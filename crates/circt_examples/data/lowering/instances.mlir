// RUN: circt opt --hw-lower-aggregates
// an instance before its module
module {
  hw.module @T(in %s : !hw.struct<x: i8, y: i4>, out o : !hw.array<2xi8>) {
    %u.p = hw.instance "u" @C(a: %s: !hw.struct<x: i8, y: i4>) -> (p: !hw.array<2xi8>)
    hw.output %u.p : !hw.array<2xi8>
  }
  hw.module private @C(in %a : !hw.struct<x: i8, y: i4>, out p : !hw.array<2xi8>) {
    %0:2 = hw.struct_explode %a : !hw.struct<x: i8, y: i4>
    %1 = hw.array_create %0#0, %0#0 : i8
    hw.output %1 : !hw.array<2xi8>
  }
}
// -----
// an instance after its module, whose leaves' names are taken; symbol and dictionary stay, and so do integers and clocks
module {
  hw.module @C(in %clk : !seq.clock, in %a : !hw.array<1xi8>, in %a_0 : i8, out a_1 : i8, out b : !hw.struct<x: i8>, out b_x : i8) {
    %r = seq.compreg %a, %clk : !hw.array<1xi8>
    %0 = hw.struct_create (%a_0) : !hw.struct<x: i8>
    hw.output %a_0, %0, %a_0 : i8, !hw.struct<x: i8>, i8
  }
  hw.module @T(in %clk : !seq.clock, in %v : !hw.array<1xi8>, in %w : i8, out o : i8, out s : !hw.struct<x: i8>) {
    %u.a_1, %u.b, %u.b_x = hw.instance "u" sym @inner @C(clk: %clk: !seq.clock, a: %v: !hw.array<1xi8>, a_0: %w: i8) -> (a_1: i8, b: !hw.struct<x: i8>, b_x: i8) {k}
    hw.output %u.a_1, %u.b : i8, !hw.struct<x: i8>
  }
}
// -----
// two instances of one module, one after the other, through elements that are taken out and put in
module {
  hw.module private @C(in %a : !hw.array<2xi8>, out p : i8, out q : !hw.array<2xi8>) {
    %false = hw.constant false
    %0 = hw.array_get %a[%false] : !hw.array<2xi8>, i1
    hw.output %0, %a : i8, !hw.array<2xi8>
  }
  hw.module @T(in %a : !hw.array<2xi8>, out o : i8) {
    %u.p, %u.q = hw.instance "u" @C(a: %a: !hw.array<2xi8>) -> (p: i8, q: !hw.array<2xi8>)
    %0 = hw.array_create %u.p, %u.p : i8
    %v.p, %v.q = hw.instance "v" @C(a: %0: !hw.array<2xi8>) -> (p: i8, q: !hw.array<2xi8>)
    hw.output %v.p : i8
  }
}
// -----
// instances three deep
module {
  hw.module @A(in %s : !hw.struct<x: i1>, out o : !hw.struct<x: i1>) {
    %u.o = hw.instance "u" @B(s: %s: !hw.struct<x: i1>) -> (o: !hw.struct<x: i1>)
    hw.output %u.o : !hw.struct<x: i1>
  }
  hw.module @C(in %s : !hw.struct<x: i1>, out o : !hw.struct<x: i1>) {
    hw.output %s : !hw.struct<x: i1>
  }
  hw.module @B(in %s : !hw.struct<x: i1>, out o : !hw.struct<x: i1>) {
    %u.o = hw.instance "u" @C(s: %s: !hw.struct<x: i1>) -> (o: !hw.struct<x: i1>)
    hw.output %u.o : !hw.struct<x: i1>
  }
}
// -----
// an instance of a module without aggregates, with operands that lowered operations gave
module {
  hw.module @T(in %s : !hw.struct<x: i8, y: i8>, out o : i8) {
    %0:2 = hw.struct_explode %s : !hw.struct<x: i8, y: i8>
    %u.c = hw.instance "u" @Add8(a: %0#1: i8, b: %0#0: i8) -> (c: i8)
    hw.output %u.c : i8
  }
  hw.module @Add8(in %a : i8, in %b : i8, out c : i8) attributes {k} {
    %0 = comb.add bin %a, %b {sv.namehint = "sum"} : i8
    hw.output %0 {e} : i8
  }
}
