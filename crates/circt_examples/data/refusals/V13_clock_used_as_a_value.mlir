// V13: a wire of a clock, in a module with an output
hw.module @T(in %clk : !seq.clock, in %a : i8, out o : i8) {
  %0 = hw.wire %clk : !seq.clock
  hw.output %a : i8
}
// -----
// V13: a mux of clocks by a bit
hw.module @T(in %clk : !seq.clock, in %c : i1) {
  %0 = comb.mux %c, %clk, %clk : !seq.clock
}
// -----
// V13: an array of two clocks
hw.module @T(in %clk : !seq.clock, in %a : i8, out o : i8) {
  %0 = hw.array_create %clk, %clk : !seq.clock
  hw.output %a : i8
}
// -----
// V13: a module's output that is a clock
hw.module @T(in %clk : !seq.clock, out o : !seq.clock) {
  hw.output %clk : !seq.clock
}
// -----
// V13: an output of a clock, where the port is a byte
hw.module @T(in %clk : !seq.clock, in %a : i8, out o : i8) {
  hw.output %clk : !seq.clock
}
// -----
// V13: a register of a clock, in a module with an output
hw.module @T(in %clk : !seq.clock, in %a : i8, out o : i8) {
  %r = seq.compreg %clk, %clk : !seq.clock
  hw.output %a : i8
}
// -----
// V13: a bitcast to a clock
hw.module @T(in %a : i1) {
  %0 = hw.bitcast %a : (i1) -> !seq.clock
}
// -----
// V13: a bitcast of a clock to a bit
hw.module @T(in %clk : !seq.clock) {
  %0 = hw.bitcast %clk : (!seq.clock) -> i1
}
// -----
// V13: an instance of no module with a result that is a clock
hw.module @T(in %a : i1) {
  %u.q = hw.instance "u" @Nope() -> (q: !seq.clock)
}
// -----
// V13: an input that is an array of clocks
hw.module @T(in %a : !hw.array<2x!seq.clock>) {
}
// -----
// V13: an input that is a struct of a clock
hw.module @T(in %a : !hw.struct<c: !seq.clock>) {
}
// -----
// V13: a clock more than there are fields
hw.module @T(in %a : i8, in %s : i1, in %clk : !seq.clock) {
  %0 = hw.struct_create (%a, %clk) : !hw.struct<x: i8>
}
// -----
// V13: a wire of a clock
hw.module @T(in %a : i8, in %s : i1, in %clk : !seq.clock) {
  %0 = hw.wire %clk : !seq.clock
}
// -----
// V13: an array of a clock
hw.module @T(in %a : i8, in %s : i1, in %clk : !seq.clock) {
  %0 = hw.array_create %clk : !seq.clock
}
// -----
// V13: an output of a clock, where there is no port
hw.module @T(in %a : i8, in %s : i1, in %clk : !seq.clock) {
  hw.output %clk : !seq.clock
}
// -----
// V13: a mux of clocks
hw.module @T(in %a : i8, in %s : i1, in %clk : !seq.clock) {
  %0 = comb.mux %s, %clk, %clk : !seq.clock
}
// -----
// V13: a bitcast of a clock
hw.module @T(in %a : i8, in %s : i1, in %clk : !seq.clock) {
  %0 = hw.bitcast %clk : (!seq.clock) -> i1
}
// -----
// V13: a register of a clock
hw.module @T(in %a : i8, in %s : i1, in %clk : !seq.clock) {
  %0 = seq.compreg %clk, %clk : !seq.clock
}
