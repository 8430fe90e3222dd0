// RUN: circt opt --cse
// of two equal sums the first in text order stays, with its dictionary
module {
  hw.module @T(in %a : i8, in %b : i8, out o : i8) {
    %0 = comb.add %a, %b {x} : i8
    %1 = comb.add %a, %b {y} : i8
    %2 = comb.sub %0, %1 : i8
    hw.output %2 : i8
  }
}
// -----
// of two equal sums the first stays, also where it has no use itself
module {
  hw.module @T(in %a : i8, in %b : i8, out o : i8) {
    %0 = comb.add %a, %b {x} : i8
    %1 = comb.add %a, %b : i8
    hw.output %1 : i8
  }
}
// -----
// three equal operations, and operations that become equal by that
module {
  hw.module @T(in %a : i128, in %b : i128, in %c : i128, out o : i128, out p : i128, out q : i128) {
    %0 = comb.and %a, %b : i128
    %1 = comb.and %a, %b : i128
    %2 = comb.mul %0, %c : i128
    %3 = comb.mul %1, %c : i128
    %4 = comb.and %a, %b : i128
    %5 = comb.mul %4, %c : i128
    hw.output %2, %3, %5 : i128, i128, i128
  }
}
// -----
// operations that become equal stand above the operations that were merged
module {
  hw.module @T(in %a : i8, in %b : i8, in %c : i8, out o : i8, out p : i8) {
    %0 = comb.mul %2, %c : i8
    %1 = comb.mul %3, %c : i8
    %2 = comb.add %a, %b : i8
    %3 = comb.add %a, %b : i8
    hw.output %0, %1 : i8, i8
  }
}
// -----
// one above the merged operations is made equal to one after it
module {
  hw.module @T(in %a : i8, in %b : i8, in %c : i8, out o : i8, out p : i8) {
    %0 = comb.mul %2, %c : i8
    %1 = comb.add %a, %b : i8
    %2 = comb.add %a, %b : i8
    %3 = comb.mul %1, %c : i8
    hw.output %0, %3 : i8, i8
  }
}
// -----
// equal operations three deep, each above its operand
module {
  hw.module @T(in %a : i8, in %b : i8, out o : i1, out p : i1) {
    %0 = comb.parity %2 : i8
    %1 = comb.parity %3 : i8
    %2 = comb.xor %4, %a : i8
    %3 = comb.xor %5, %a : i8
    %4 = comb.shl %a, %b : i8
    %5 = comb.shl %a, %b : i8
    hw.output %0, %1 : i1, i1
  }
}
// -----
// equal operations on a register that one of them feeds
module {
  hw.module @T(in %clk : !seq.clock, in %a : i8, out o : i8) {
    %r = seq.compreg %1, %clk : i8
    %0 = comb.add %r, %a : i8
    %1 = comb.add %r, %a : i8
    hw.output %0 : i8
  }
}
// -----
// constants of equal bits and one type
module {
  hw.module @T(out o : i8, out p : i8, out q : i1, out r : i1) {
    %0 = hw.constant 255 : i8
    %1 = hw.constant -1 : i8
    %2 = hw.constant true
    %3 = hw.constant 1 : i1
    hw.output %0, %1, %2, %3 : i8, i8, i1, i1
  }
}
// -----
// equal operations of several results
module {
  hw.module @T(in %s : !hw.struct<x: i8, y: i8>, out o : i8) {
    %0:2 = hw.struct_explode %s : !hw.struct<x: i8, y: i8>
    %1:2 = hw.struct_explode %s : !hw.struct<x: i8, y: i8>
    %2 = comb.add %0#0, %1#1, %1#0 : i8
    hw.output %2 : i8
  }
}
// -----
// the mark `bin` is not compared
module {
  hw.module @T(in %a : i8, in %b : i8, out o : i8, out p : i8) {
    %0 = comb.add bin %a, %b : i8
    %1 = comb.add %a, %b : i8
    hw.output %0, %1 : i8, i8
  }
}
// -----
// equal parts of structs and arrays
module {
  hw.module @T(in %s : !hw.struct<x: i8, y: i8>, in %a : !hw.array<4xi8>, in %i : i2, out o : i8, out p : i8, out q : i8, out r : i8) {
    %0 = hw.struct_extract %s["y"] : !hw.struct<x: i8, y: i8>
    %1 = hw.array_get %a[%i] : !hw.array<4xi8>, i2
    %2 = hw.array_get %a[%i] : !hw.array<4xi8>, i2
    %3 = hw.struct_extract %s["y"] : !hw.struct<x: i8, y: i8>
    hw.output %0, %1, %2, %3 : i8, i8, i8, i8
  }
}
// -----
// equal constants of aggregate types
module {
  hw.module @T(out o : !hw.array<2xi8>, out p : !hw.array<2xi8>, out q : !hw.array<2xi8>) {
    %0 = hw.aggregate_constant [1 : i8, 2 : i8] : !hw.array<2xi8>
    %1 = hw.aggregate_constant [1 : i8, 3 : i8] : !hw.array<2xi8>
    %2 = hw.aggregate_constant [1 : i8, 2 : i8] : !hw.array<2xi8>
    hw.output %0, %1, %2 : !hw.array<2xi8>, !hw.array<2xi8>, !hw.array<2xi8>
  }
}
// -----
// equal operations in a body after another one
module {
  hw.module @T(in %a : i8, out o : i8, out p : i8) {
    %0 = comb.mul %a, %a : i8
    hw.output %0, %0 : i8, i8
  }
  hw.module @U(in %a : i8, out o : i8, out p : i8) {
    %0 = comb.mul %a, %a : i8
    %1 = comb.mul %a, %a : i8
    hw.output %0, %1 : i8, i8
  }
}
// -----
// an operation without uses goes
module {
  hw.module @T(in %a : i8, out o : i8) {
    %0 = comb.add %a, %a : i8
    hw.output %a : i8
  }
}
// -----
// a chain of operations without uses goes, each after its operand
module {
  hw.module @T(in %a : i8, in %b : i8, out o : i8) {
    %0 = comb.add %a, %b : i8
    %1 = comb.mul %0, %0 : i8
    %2 = comb.xor %1, %a : i8
    hw.output %a : i8
  }
}
// -----
// a chain of operations without uses goes, each before its operand
module {
  hw.module @T(in %a : i8, in %b : i8, out o : i8) {
    %0 = comb.xor %1, %a : i8
    %1 = comb.mul %2, %2 : i8
    %2 = comb.add %a, %b : i8
    hw.output %a : i8
  }
}
// -----
// an operation of two results stays where one is used, and unused parts go
module {
  hw.module @T(in %s : !hw.struct<x: i8, y: i8>, out o : i8) {
    %0:2 = hw.struct_explode %s : !hw.struct<x: i8, y: i8>
    %1:2 = hw.struct_explode %s : !hw.struct<x: i8, y: i8>
    %2 = hw.struct_extract %s["x"] : !hw.struct<x: i8, y: i8>
    hw.output %1#1 : i8
  }
}
