// ports with empty, illegal, reserved and equal names
hw.module @N(in %p0 "" : i1, in %p1 "-x" : i1, in %p2 "$x" : i1, in %p3 "é" : i1, in %p4 "wire" : i1, in %p5 "a.b" : i1, in %p6 "a_b" : i1, in %p7 "9" : i1, in %p8 "x$1" : i1, out "out put" : i1) {
  hw.output %p0 : i1
}
// -----
// modules with illegal, equal, reserved and empty names
hw.module @"M 1"() {}
hw.module @M_1() {}
hw.module @module() {}
hw.module @""() {}
// -----
// an instance of an earlier module without ports
hw.module @Child() {}
hw.module @P() {
  hw.instance "u" @Child() -> ()
}
// -----
// an instance with a reserved name, before its module's text
hw.module @P() {
  hw.instance "module" @B() -> ()
}
hw.module @B() {}
// -----
// an instance joined to a constant and to a sum, with an input that nothing uses
hw.module @C(in %x : i8, in %y : i8, out q : i8) {
  hw.output %x : i8
}
hw.module @P(in %a : i8, out o : i8) {
  %k = hw.constant 5 : i8
  %0 = comb.add %a, %k : i8
  %u.q = hw.instance "u" @C(x: %k: i8, y: %0: i8) -> (q: i8)
  hw.output %u.q : i8
}
// -----
// three instances, two of one name and one of an illegal name
hw.module @C(out q : i1, in %x : i1) {
  hw.output %x : i1
}
hw.module @P(in %a : i1, out o : i1) {
  %0 = hw.instance "u" @C(x: %a: i1) -> (q: i1)
  %1 = hw.instance "u" @C(x: %0: i1) -> (q: i1)
  %2 = hw.instance "a b" @C(x: %1: i1) -> (q: i1)
  hw.output %2 : i1
}
// -----
// an instance and its module's ports have reserved names, and a port has the name of the instance's wire
hw.module @C(in %wire : i1, out reg : i1) {
  hw.output %wire : i1
}
hw.module @P(in %_u_reg : i1, in %u : i1, out o : i1) {
  %0 = hw.instance "u" @C(wire: %_u_reg: i1) -> (reg: i1)
  hw.output %0 : i1
}
// -----
// a name in a module may be a module's, and an unused result has a wire
hw.module @C(in %x : i1, out q : i1) {
  hw.output %x : i1
}
hw.module @P(in %P : i1) {
  %0 = hw.instance "C" @C(x: %P: i1) -> (q: i1)
}
// -----
// a constant with a wire of its own is joined by its name, and an operation that prints nothing has a wire there
hw.module @C(in %x : i8, in %y : i8) {}
hw.module @P(in %a : i8, out o : i4) {
  %k = hw.constant 5 : i8
  %0 = hw.bitcast %a : (i8) -> i8
  hw.instance "u" @C(x: %k: i8, y: %0: i8) -> ()
  %1 = comb.extract %k from 4 : (i8) -> i4
  hw.output %1 : i4
}
