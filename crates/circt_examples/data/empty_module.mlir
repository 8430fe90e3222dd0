// a module without ports and operations
hw.module @M() {}
