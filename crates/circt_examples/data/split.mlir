// a module without ports
hw.module @A() {}
// -----
// the same module in another piece of the file
hw.module @A() {}
