// a module without ports
module {
  hw.module @A() {
    hw.output
  }
}
// -----
// the same module in another piece of the file
module {
  hw.module @A() {
    hw.output
  }
}
