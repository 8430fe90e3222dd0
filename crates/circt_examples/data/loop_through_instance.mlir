// an instance whose output is its input, through a register
hw.module private @D(in %clk : !seq.clock, in %d : i1, out q : i1) {
  %r = seq.compreg %d, %clk : i1
  hw.output %r : i1
}
hw.module @P(in %clk : !seq.clock, out o : i1) {
  %u.q = hw.instance "u" @D(clk: %clk: !seq.clock, d: %u.q: i1) -> (q: i1)
  hw.output %u.q : i1
}
