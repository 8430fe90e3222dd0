// a constant of 8 bits that is written 255
module {
  hw.module @K(out c : i8) {
    %c-1_i8 = hw.constant -1 : i8
    hw.output %c-1_i8 : i8
  }
}
