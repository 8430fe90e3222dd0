// ports with Verilog's reserved words as names
module {
  hw.module @R(in %reg : i1, in %reg_0 : i1, out c : i1) {
    %0 = comb.and %reg, %reg_0 : i1
    hw.output %0 : i1
  }
}
