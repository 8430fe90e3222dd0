// the widest array, the longest array, and a length that is written 0x2
module {
  hw.module @L(in %a : !hw.array<32xi128>, in %b : !hw.array<1024xi1>, in %c : !hw.array<2xi8>) {
    hw.output
  }
}
