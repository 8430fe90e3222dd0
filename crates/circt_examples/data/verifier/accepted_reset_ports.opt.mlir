// no reset port is joined to a result, through two instances
module {
  hw.module private @Low(out o : i1, in %c : !seq.clock, in %a : i1, in %b : i1) {
    %true = hw.constant true
    %s = seq.firreg %a clock %c reset async %b, %true : i1
    hw.output %a : i1
  }
  hw.module private @Middle(in %c : !seq.clock, in %a : i1, in %b : i1) {
    %u.o = hw.instance "u" @Low(c: %c: !seq.clock, a: %b: i1, b: %a: i1) -> (o: i1)
    hw.output
  }
  hw.module private @Top(in %c : !seq.clock, in %a : i1, in %b : i1) {
    hw.instance "u" @Middle(c: %c: !seq.clock, a: %b: i1, b: %a: i1) -> ()
    hw.output
  }
  hw.module @User(in %c : !seq.clock, in %x : i1, in %y : i1) {
    %0 = comb.and %x, %y : i1
    %u.o = hw.instance "u" @Low(c: %c: !seq.clock, a: %0: i1, b: %x: i1) -> (o: i1)
    hw.instance "v" @Middle(c: %c: !seq.clock, a: %x: i1, b: %0: i1) -> ()
    hw.instance "w" @Top(c: %c: !seq.clock, a: %0: i1, b: %x: i1) -> ()
    hw.output
  }
}
// -----
// no reset port is joined to a result, in the other text order
module {
  hw.module @User(in %c : !seq.clock, in %x : i1, in %y : i1) {
    %0 = comb.and %x, %y : i1
    %u.o = hw.instance "u" @Low(c: %c: !seq.clock, a: %0: i1, b: %x: i1) -> (o: i1)
    hw.instance "v" @Middle(c: %c: !seq.clock, a: %x: i1, b: %0: i1) -> ()
    hw.instance "w" @Top(c: %c: !seq.clock, a: %0: i1, b: %x: i1) -> ()
    hw.output
  }
  hw.module private @Top(in %c : !seq.clock, in %a : i1, in %b : i1) {
    hw.instance "u" @Middle(c: %c: !seq.clock, a: %b: i1, b: %a: i1) -> ()
    hw.output
  }
  hw.module private @Middle(in %c : !seq.clock, in %a : i1, in %b : i1) {
    %u.o = hw.instance "u" @Low(c: %c: !seq.clock, a: %b: i1, b: %a: i1) -> (o: i1)
    hw.output
  }
  hw.module private @Low(out o : i1, in %c : !seq.clock, in %a : i1, in %b : i1) {
    %true = hw.constant true
    %s = seq.firreg %a clock %c reset async %b, %true : i1
    hw.output %a : i1
  }
}
// -----
// one port is joined to both the data and the reset, and the other one to none
module {
  hw.module private @Low(out o : i1, in %c : !seq.clock, in %a : i1, in %b : i1) {
    %true = hw.constant true
    %s = seq.firreg %a clock %c reset async %b, %true : i1
    hw.output %a : i1
  }
  hw.module private @Top(in %c : !seq.clock, in %a : i1, in %b : i1) {
    %u.o = hw.instance "u" @Low(c: %c: !seq.clock, a: %b: i1, b: %b: i1) -> (o: i1)
    hw.output
  }
  hw.module @User(in %c : !seq.clock, in %x : i1, in %y : i1) {
    %0 = comb.and %x, %y : i1
    hw.instance "u" @Top(c: %c: !seq.clock, a: %0: i1, b: %x: i1) -> ()
    hw.output
  }
}
