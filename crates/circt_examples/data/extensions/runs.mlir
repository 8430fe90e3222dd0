// RUN: circt opt
// RUN: circt translate --export-verilog
// RUN: circt translate --export-verilog --lowering-options=implicitExtension
// sums, differences, products, shifts to the left and quotients carry into the upper half
hw.module @T(in %a : i8, in %b : i16, out s : i16, out d : i16, out p : i16, out l : i16, out q : i16) {
  %z = hw.constant 0 : i8
  %k = hw.constant 3 : i16
  %0 = comb.concat %z, %a : i8, i8
  %1 = comb.add %0, %b : i16
  %2 = comb.concat %z, %a : i8, i8
  %3 = comb.sub %2, %b : i16
  %4 = comb.concat %z, %a : i8, i8
  %5 = comb.mul %4, %b : i16
  %6 = comb.concat %z, %a : i8, i8
  %7 = comb.shl %6, %b : i16
  %8 = comb.concat %z, %a : i8, i8
  %9 = comb.divu %8, %k : i16
  hw.output %1, %3, %5, %7, %9 : i16, i16, i16, i16, i16
}
// -----
// a sum that is joined with zeros does not carry
hw.module @T(in %a : i8, in %b : i16, out o : i16) {
  %z = hw.constant 0 : i8
  %0 = comb.add %a, %a : i8
  %1 = comb.concat %z, %0 : i8, i8
  %2 = comb.add %1, %b : i16
  hw.output %2 : i16
}
// -----
// comparisons, also of a sum, are of 16 bits
hw.module @T(in %a : i8, in %b : i16, in %c : i16, out u : i1, out s : i1, out t : i1) {
  %z = hw.constant 0 : i8
  %0 = comb.concat %z, %a : i8, i8
  %1 = comb.icmp ult %0, %b : i16
  %2 = comb.concat %z, %a : i8, i8
  %3 = comb.icmp slt %2, %b : i16
  %4 = comb.concat %z, %a : i8, i8
  %5 = comb.add %4, %b : i16
  %6 = comb.icmp ult %5, %c : i16
  hw.output %1, %3, %6 : i1, i1, i1
}
// -----
// arithmetic shifts and signed quotients see a sign of 0
hw.module @T(in %a : i8, in %b : i16, out r : i16, out q : i16) {
  %z = hw.constant 0 : i8
  %k = hw.constant 3 : i16
  %0 = comb.concat %z, %a : i8, i8
  %1 = comb.shrs %0, %b : i16
  %2 = comb.concat %z, %a : i8, i8
  %3 = comb.divs %2, %k : i16
  hw.output %1, %3 : i16, i16
}
// -----
// a register that loads and is reset to zero extensions
hw.module @T(in %clk : !seq.clock, in %rst : i1, in %a : i8, in %b : i8, out q : i16) {
  %z = hw.constant 0 : i8
  %0 = comb.concat %z, %a : i8, i8
  %1 = comb.concat %z, %b : i8, i8
  %r = seq.compreg %0, %clk reset %rst, %1 : i16
  hw.output %r : i16
}
