// V21: an instance of its own module joins a reset to another input port
hw.module @T(in %c : !seq.clock, in %d : i1, in %r : i1, out q : i1) {
  %true = hw.constant true
  %s = seq.firreg %d clock %c reset async %r, %true : i1
  %u.q = hw.instance "u" @T(c: %c: !seq.clock, d: %r: i1, r: %d: i1) -> (q: i1)
  hw.output %d : i1
}
// -----
// V21: a module within itself without a register
hw.module private @Loop(in %c : !seq.clock, in %a : i1, in %b : i1) {
  hw.instance "u" @Loop(c: %c: !seq.clock, a: %b: i1, b: %a: i1) -> ()
}
hw.module @User(in %c : !seq.clock, in %x : i1, in %y : i1) {
  %0 = comb.and %x, %y : i1
  hw.instance "u" @Loop(c: %c: !seq.clock, a: %0: i1, b: %0: i1) -> ()
}
// -----
// V21: a module has an instance of itself
hw.module @A() {
  hw.instance "u" @A() -> ()
}
// -----
// V21: two modules have instances of each other
hw.module @A() {
  hw.instance "u" @B() -> ()
}
hw.module @B() {
  hw.instance "v" @A() -> ()
}
// -----
// V21: an earlier module has an instance of a module that has one of itself
hw.module @C() {
  hw.instance "u" @A() -> ()
}
hw.module @A() {
  hw.instance "u" @A() -> ()
}
// -----
// V21: the second instance leads back to its module, the first does not
hw.module @A() {
  hw.instance "c" @C() -> ()
  hw.instance "b" @B() -> ()
}
hw.module @B() {
  hw.instance "a" @A() -> ()
}
hw.module @C() {
}
// -----
// V21: a module has an instance of itself, after a module with a cycle of values
hw.module @L(in %a : i8, out o : i8) {
  %0 = comb.and %0, %a : i8
  hw.output %0 : i8
}
hw.module @A() {
  hw.instance "u" @A() -> ()
}
// -----
// V21: a module has an instance of itself, after one that is too large
hw.module @S(in %x : !hw.array<1024xi1>, in %i : i10) {
  %0 = hw.array_slice %x[%i] : (!hw.array<1024xi1>) -> !hw.array<1024xi1>
  %1 = hw.array_slice %x[%i] : (!hw.array<1024xi1>) -> !hw.array<1024xi1>
  %2 = hw.array_slice %x[%i] : (!hw.array<1024xi1>) -> !hw.array<1024xi1>
  %3 = hw.array_slice %x[%i] : (!hw.array<1024xi1>) -> !hw.array<1024xi1>
  %4 = hw.array_slice %x[%i] : (!hw.array<1024xi1>) -> !hw.array<1024xi1>
  %5 = hw.array_slice %x[%i] : (!hw.array<1024xi1>) -> !hw.array<1024xi1>
  %6 = hw.array_slice %x[%i] : (!hw.array<1024xi1>) -> !hw.array<1024xi1>
  %7 = hw.array_slice %x[%i] : (!hw.array<1024xi1>) -> !hw.array<1024xi1>
}
hw.module @H(in %x : !hw.array<1024xi1>, in %i : i10) {
  hw.instance "u" @S(x: %x: !hw.array<1024xi1>, i: %i: i10) -> ()
  hw.instance "u" @S(x: %x: !hw.array<1024xi1>, i: %i: i10) -> ()
  hw.instance "u" @S(x: %x: !hw.array<1024xi1>, i: %i: i10) -> ()
  hw.instance "u" @S(x: %x: !hw.array<1024xi1>, i: %i: i10) -> ()
  hw.instance "u" @S(x: %x: !hw.array<1024xi1>, i: %i: i10) -> ()
  hw.instance "u" @S(x: %x: !hw.array<1024xi1>, i: %i: i10) -> ()
  hw.instance "u" @S(x: %x: !hw.array<1024xi1>, i: %i: i10) -> ()
  hw.instance "u" @S(x: %x: !hw.array<1024xi1>, i: %i: i10) -> ()
}
hw.module @A() {
  hw.instance "u" @A() -> ()
}
// -----
// V21: modules with instances of each other, the first of them with one in another
hw.module @T() {
  hw.instance "t" @A() -> ()
}
hw.module @A() {
  hw.instance "b" @B() -> ()
}
hw.module @B() {
  hw.instance "a" @A() -> ()
}
