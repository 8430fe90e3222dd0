// comb.icmp eq
hw.module @T(in %a : i8, in %b : i8, in %c : i8, in %s : i1, out o : i1) {
  %o = comb.icmp eq %a, %b : i8
  hw.output %o : i1
}
// -----
// comb.icmp ne
hw.module @T(in %a : i8, in %b : i8, in %c : i8, in %s : i1, out o : i1) {
  %o = comb.icmp ne %a, %b : i8
  hw.output %o : i1
}
// -----
// comb.icmp slt
hw.module @T(in %a : i8, in %b : i8, in %c : i8, in %s : i1, out o : i1) {
  %o = comb.icmp slt %a, %b : i8
  hw.output %o : i1
}
// -----
// comb.icmp sle
hw.module @T(in %a : i8, in %b : i8, in %c : i8, in %s : i1, out o : i1) {
  %o = comb.icmp sle %a, %b : i8
  hw.output %o : i1
}
// -----
// comb.icmp sgt
hw.module @T(in %a : i8, in %b : i8, in %c : i8, in %s : i1, out o : i1) {
  %o = comb.icmp sgt %a, %b : i8
  hw.output %o : i1
}
// -----
// comb.icmp sge
hw.module @T(in %a : i8, in %b : i8, in %c : i8, in %s : i1, out o : i1) {
  %o = comb.icmp sge %a, %b : i8
  hw.output %o : i1
}
// -----
// comb.icmp ult
hw.module @T(in %a : i8, in %b : i8, in %c : i8, in %s : i1, out o : i1) {
  %o = comb.icmp ult %a, %b : i8
  hw.output %o : i1
}
// -----
// comb.icmp ule
hw.module @T(in %a : i8, in %b : i8, in %c : i8, in %s : i1, out o : i1) {
  %o = comb.icmp ule %a, %b : i8
  hw.output %o : i1
}
// -----
// comb.icmp ugt
hw.module @T(in %a : i8, in %b : i8, in %c : i8, in %s : i1, out o : i1) {
  %o = comb.icmp ugt %a, %b : i8
  hw.output %o : i1
}
// -----
// comb.icmp uge
hw.module @T(in %a : i8, in %b : i8, in %c : i8, in %s : i1, out o : i1) {
  %o = comb.icmp uge %a, %b : i8
  hw.output %o : i1
}
// -----
// comb.icmp ceq
hw.module @T(in %a : i8, in %b : i8, in %c : i8, in %s : i1, out o : i1) {
  %o = comb.icmp ceq %a, %b : i8
  hw.output %o : i1
}
// -----
// comb.icmp cne
hw.module @T(in %a : i8, in %b : i8, in %c : i8, in %s : i1, out o : i1) {
  %o = comb.icmp cne %a, %b : i8
  hw.output %o : i1
}
// -----
// comb.icmp weq
hw.module @T(in %a : i8, in %b : i8, in %c : i8, in %s : i1, out o : i1) {
  %o = comb.icmp weq %a, %b : i8
  hw.output %o : i1
}
// -----
// comb.icmp wne
hw.module @T(in %a : i8, in %b : i8, in %c : i8, in %s : i1, out o : i1) {
  %o = comb.icmp wne %a, %b : i8
  hw.output %o : i1
}
// -----
// comb.icmp slt with a negative constant
hw.module @T(in %a : i8, in %b : i8, in %c : i8, in %s : i1, out o : i1) {
  %k = hw.constant -2 : i8
  %o = comb.icmp slt %a, %k : i8
  hw.output %o : i1
}
// -----
// comb.parity of a port
hw.module @T(in %a : i8, in %b : i8, in %c : i8, in %s : i1, out o : i1) {
  %o = comb.parity %a : i8
  hw.output %o : i1
}
// -----
// comb.parity of a sum
hw.module @T(in %a : i8, in %b : i8, in %c : i8, in %s : i1, out o : i1) {
  %0 = comb.add %a, %b : i8
  %o = comb.parity %0 : i8
  hw.output %o : i1
}
// -----
// comb.parity of an arithmetic shift
hw.module @T(in %a : i8, in %b : i8, in %c : i8, in %s : i1, out o : i1) {
  %0 = comb.shrs %a, %b : i8
  %o = comb.parity %0 : i8
  hw.output %o : i1
}
// -----
// comb.parity of a parity
hw.module @T(in %a : i8, in %b : i8, in %c : i8, in %s : i1, out o : i1) {
  %0 = comb.parity %a : i8
  %o = comb.parity %0 : i1
  hw.output %o : i1
}
// -----
// comb.parity of a concat
hw.module @T(in %a : i8, in %b : i8, in %c : i8, in %s : i1, out o : i1) {
  %0 = comb.concat %a, %b : i8, i8
  %o = comb.parity %0 : i16
  hw.output %o : i1
}
// -----
// comb.parity on the right of an xor
hw.module @T(in %a : i8, in %b : i8, in %c : i8, in %s : i1, out o : i1) {
  %0 = comb.parity %a : i8
  %o = comb.xor %s, %0 : i1
  hw.output %o : i1
}
// -----
// comb.extract of all bits
hw.module @T(in %a : i8, in %b : i8, in %c : i8, in %s : i1, out o : i8) {
  %o = comb.extract %a from 0 : (i8) -> i8
  hw.output %o : i8
}
// -----
// comb.extract of four bits in the middle
hw.module @T(in %a : i8, in %b : i8, in %c : i8, in %s : i1, out o : i4) {
  %o = comb.extract %a from 2 : (i8) -> i4
  hw.output %o : i4
}
// -----
// comb.extract of the highest bit
hw.module @T(in %a : i8, in %b : i8, in %c : i8, in %s : i1, out o : i1) {
  %o = comb.extract %a from 7 : (i8) -> i1
  hw.output %o : i1
}
// -----
// comb.extract of the only bit
hw.module @T(in %a : i8, in %b : i8, in %c : i8, in %s : i1, out o : i1) {
  %o = comb.extract %s from 0 : (i1) -> i1
  hw.output %o : i1
}
// -----
// comb.concat of three operands
hw.module @T(in %a : i8, in %b : i8, in %c : i8, in %s : i1, out o : i17) {
  %o = comb.concat %a, %s, %b : i8, i1, i8
  hw.output %o : i17
}
// -----
// comb.concat of one operand
hw.module @T(in %a : i8, in %b : i8, in %c : i8, in %s : i1, out o : i8) {
  %o = comb.concat %a : i8
  hw.output %o : i8
}
// -----
// comb.replicate, three copies
hw.module @T(in %a : i8, in %b : i8, in %c : i8, in %s : i1, out o : i24) {
  %o = comb.replicate %a : (i8) -> i24
  hw.output %o : i24
}
// -----
// comb.replicate, one copy
hw.module @T(in %a : i8, in %b : i8, in %c : i8, in %s : i1, out o : i8) {
  %o = comb.replicate %a : (i8) -> i8
  hw.output %o : i8
}
// -----
// comb.replicate of a sum
hw.module @T(in %a : i8, in %b : i8, in %c : i8, in %s : i1, out o : i16) {
  %0 = comb.add %a, %b : i8
  %o = comb.replicate %0 : (i8) -> i16
  hw.output %o : i16
}
// -----
// comb.concat of an arithmetic shift and a port
hw.module @T(in %a : i8, in %b : i8, in %c : i8, in %s : i1, out o : i16) {
  %0 = comb.shrs %a, %b : i8
  %o = comb.concat %0, %c : i8, i8
  hw.output %o : i16
}
