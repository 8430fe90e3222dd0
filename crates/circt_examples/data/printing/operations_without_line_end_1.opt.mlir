// comments, tabs, line ends within a header, and no blanks
module {
  hw.module @S(in %a : i8, out o : i8) {
    %0 = comb.add %a, %a : i8
    hw.output %0 : i8
  }
}
