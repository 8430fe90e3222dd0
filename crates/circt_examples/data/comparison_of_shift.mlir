// an arithmetic shift on the left of an equality
hw.module @T(in %a : i8, in %b : i8, in %c : i8, out o : i1) {
  %0 = comb.shrs %a, %b : i8
  %1 = comb.icmp eq %0, %c : i8
  hw.output %1 : i1
}
// -----
// an arithmetic shift on the left of a signed order
hw.module @T(in %a : i8, in %b : i8, in %c : i8, out o : i1) {
  %0 = comb.shrs %a, %b : i8
  %1 = comb.icmp slt %0, %c : i8
  hw.output %1 : i1
}
