// a module with an older header
module {
  hw.module @O(in %a : i8, in %b : i8, out c : i8) {
    %0 = comb.add %a, %b : i8
    hw.output %0 : i8
  }
}
