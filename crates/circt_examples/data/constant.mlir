// a constant of 8 bits that is written 255
hw.module @K(out c : i8) {
  %x = hw.constant 255 : i8
  hw.output %x : i8
}
