// an extract of the only bit
hw.module @T(in %x : i1, out c : i1) {
  %0 = comb.extract %x from 0 : (i1) -> i1
  hw.output %0 : i1
}
// -----
// an extract of a part of a sum
hw.module @T(in %a : i8, in %b : i8, out c : i4) {
  %0 = comb.add %a, %b : i8
  %1 = comb.extract %0 from 0 : (i8) -> i4
  hw.output %1 : i4
}
