// V16: two modules of one name, both empty
hw.module @A() {}
hw.module @A() {}
// -----
// V16: a third module of the name of the first, private and with ports
hw.module @A() {}
hw.module @B() {}
hw.module private @A(in %x : i8, out x : i8) {}
