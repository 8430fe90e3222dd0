// a module without ports and operations
module {
  hw.module @M() {
    hw.output
  }
}
