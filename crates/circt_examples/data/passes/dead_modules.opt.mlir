// a private module that nothing instances goes
module {
  hw.module @T(in %a : i8, out o : i8) {
    hw.output %a : i8
  }
}
// -----
// three deep: what a public one reaches stays, what only private ones reach goes, in any order
module {
  hw.module @T(in %a : i8, out o : i8) {
    %u.o = hw.instance "u" @B(a: %a: i8) -> (o: i8)
    hw.output %u.o : i8
  }
  hw.module private @C(in %a : i8, out o : i8) {
    hw.output %a : i8
  }
  hw.module private @B(in %a : i8, out o : i8) {
    %u.o = hw.instance "u" @C(a: %a: i8) -> (o: i8)
    hw.output %u.o : i8
  }
}
// -----
// public modules stay, instanced or not
module {
  hw.module @T(in %a : i8, out o : i8) {
    %u.o = hw.instance "u" @B(a: %a: i8) -> (o: i8)
    hw.output %u.o : i8
  }
  hw.module @B(in %a : i8, out o : i8) {
    hw.output %a : i8
  }
  hw.module @C(in %a : i8, out o : i8) {
    hw.output %a : i8
  }
}
// -----
// a private module stays that is reached by a public one that nothing instances
module {
  hw.module @T(in %a : i8, out o : i8) {
    hw.output %a : i8
  }
  hw.module private @C(in %a : i8, out o : i8) {
    hw.output %a : i8
  }
  hw.module @B(in %a : i8, out o : i8) {
    %u.o = hw.instance "u" @C(a: %a: i8) -> (o: i8)
    hw.output %u.o : i8
  }
}
