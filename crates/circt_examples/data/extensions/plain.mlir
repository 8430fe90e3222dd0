// RUN: circt translate --export-verilog
// comb.add: the first operand
hw.module @T(in %a : i8, in %b : i16, in %c : i16, in %s : i1, out o : i16) {
  %z = hw.constant 0 : i8
  %0 = comb.concat %z, %a : i8, i8
  %1 = comb.add %0, %b : i16
  hw.output %1 : i16
}
// -----
// comb.add: the second operand
hw.module @T(in %a : i8, in %b : i16, in %c : i16, in %s : i1, out o : i16) {
  %z = hw.constant 0 : i8
  %0 = comb.concat %z, %a : i8, i8
  %1 = comb.add %b, %0 : i16
  hw.output %1 : i16
}
// -----
// comb.add: the third operand
hw.module @T(in %a : i8, in %b : i16, in %c : i16, in %s : i1, out o : i16) {
  %z = hw.constant 0 : i8
  %0 = comb.concat %z, %a : i8, i8
  %1 = comb.add %b, %c, %0 : i16
  hw.output %1 : i16
}
// -----
// comb.add: the only operand
hw.module @T(in %a : i8, in %b : i16, in %c : i16, in %s : i1, out o : i16) {
  %z = hw.constant 0 : i8
  %0 = comb.concat %z, %a : i8, i8
  %1 = comb.add %0 : i16
  hw.output %1 : i16
}
// -----
// comb.mul: the first operand
hw.module @T(in %a : i8, in %b : i16, in %c : i16, in %s : i1, out o : i16) {
  %z = hw.constant 0 : i8
  %0 = comb.concat %z, %a : i8, i8
  %1 = comb.mul %0, %b : i16
  hw.output %1 : i16
}
// -----
// comb.mul: the second operand
hw.module @T(in %a : i8, in %b : i16, in %c : i16, in %s : i1, out o : i16) {
  %z = hw.constant 0 : i8
  %0 = comb.concat %z, %a : i8, i8
  %1 = comb.mul %b, %0 : i16
  hw.output %1 : i16
}
// -----
// comb.mul: the third operand
hw.module @T(in %a : i8, in %b : i16, in %c : i16, in %s : i1, out o : i16) {
  %z = hw.constant 0 : i8
  %0 = comb.concat %z, %a : i8, i8
  %1 = comb.mul %b, %c, %0 : i16
  hw.output %1 : i16
}
// -----
// comb.mul: the only operand
hw.module @T(in %a : i8, in %b : i16, in %c : i16, in %s : i1, out o : i16) {
  %z = hw.constant 0 : i8
  %0 = comb.concat %z, %a : i8, i8
  %1 = comb.mul %0 : i16
  hw.output %1 : i16
}
// -----
// comb.and: the first operand
hw.module @T(in %a : i8, in %b : i16, in %c : i16, in %s : i1, out o : i16) {
  %z = hw.constant 0 : i8
  %0 = comb.concat %z, %a : i8, i8
  %1 = comb.and %0, %b : i16
  hw.output %1 : i16
}
// -----
// comb.and: the second operand
hw.module @T(in %a : i8, in %b : i16, in %c : i16, in %s : i1, out o : i16) {
  %z = hw.constant 0 : i8
  %0 = comb.concat %z, %a : i8, i8
  %1 = comb.and %b, %0 : i16
  hw.output %1 : i16
}
// -----
// comb.and: the third operand
hw.module @T(in %a : i8, in %b : i16, in %c : i16, in %s : i1, out o : i16) {
  %z = hw.constant 0 : i8
  %0 = comb.concat %z, %a : i8, i8
  %1 = comb.and %b, %c, %0 : i16
  hw.output %1 : i16
}
// -----
// comb.and: the only operand
hw.module @T(in %a : i8, in %b : i16, in %c : i16, in %s : i1, out o : i16) {
  %z = hw.constant 0 : i8
  %0 = comb.concat %z, %a : i8, i8
  %1 = comb.and %0 : i16
  hw.output %1 : i16
}
// -----
// comb.or: the first operand
hw.module @T(in %a : i8, in %b : i16, in %c : i16, in %s : i1, out o : i16) {
  %z = hw.constant 0 : i8
  %0 = comb.concat %z, %a : i8, i8
  %1 = comb.or %0, %b : i16
  hw.output %1 : i16
}
// -----
// comb.or: the second operand
hw.module @T(in %a : i8, in %b : i16, in %c : i16, in %s : i1, out o : i16) {
  %z = hw.constant 0 : i8
  %0 = comb.concat %z, %a : i8, i8
  %1 = comb.or %b, %0 : i16
  hw.output %1 : i16
}
// -----
// comb.or: the third operand
hw.module @T(in %a : i8, in %b : i16, in %c : i16, in %s : i1, out o : i16) {
  %z = hw.constant 0 : i8
  %0 = comb.concat %z, %a : i8, i8
  %1 = comb.or %b, %c, %0 : i16
  hw.output %1 : i16
}
// -----
// comb.or: the only operand
hw.module @T(in %a : i8, in %b : i16, in %c : i16, in %s : i1, out o : i16) {
  %z = hw.constant 0 : i8
  %0 = comb.concat %z, %a : i8, i8
  %1 = comb.or %0 : i16
  hw.output %1 : i16
}
// -----
// comb.xor: the first operand
hw.module @T(in %a : i8, in %b : i16, in %c : i16, in %s : i1, out o : i16) {
  %z = hw.constant 0 : i8
  %0 = comb.concat %z, %a : i8, i8
  %1 = comb.xor %0, %b : i16
  hw.output %1 : i16
}
// -----
// comb.xor: the second operand
hw.module @T(in %a : i8, in %b : i16, in %c : i16, in %s : i1, out o : i16) {
  %z = hw.constant 0 : i8
  %0 = comb.concat %z, %a : i8, i8
  %1 = comb.xor %b, %0 : i16
  hw.output %1 : i16
}
// -----
// comb.xor: the third operand
hw.module @T(in %a : i8, in %b : i16, in %c : i16, in %s : i1, out o : i16) {
  %z = hw.constant 0 : i8
  %0 = comb.concat %z, %a : i8, i8
  %1 = comb.xor %b, %c, %0 : i16
  hw.output %1 : i16
}
// -----
// comb.xor: the only operand
hw.module @T(in %a : i8, in %b : i16, in %c : i16, in %s : i1, out o : i16) {
  %z = hw.constant 0 : i8
  %0 = comb.concat %z, %a : i8, i8
  %1 = comb.xor %0 : i16
  hw.output %1 : i16
}
// -----
// comb.sub: the first operand
hw.module @T(in %a : i8, in %b : i16, in %c : i16, in %s : i1, out o : i16) {
  %z = hw.constant 0 : i8
  %0 = comb.concat %z, %a : i8, i8
  %1 = comb.sub %0, %b : i16
  hw.output %1 : i16
}
// -----
// comb.sub: the second operand
hw.module @T(in %a : i8, in %b : i16, in %c : i16, in %s : i1, out o : i16) {
  %z = hw.constant 0 : i8
  %0 = comb.concat %z, %a : i8, i8
  %1 = comb.sub %b, %0 : i16
  hw.output %1 : i16
}
// -----
// comb.divu: what is divided
hw.module @T(in %a : i8, in %b : i16, in %c : i16, in %s : i1, out o : i16) {
  %z = hw.constant 0 : i8
  %0 = comb.concat %z, %a : i8, i8
  %k = hw.constant 5 : i16
  %1 = comb.divu %0, %k : i16
  hw.output %1 : i16
}
// -----
// comb.modu: what is divided
hw.module @T(in %a : i8, in %b : i16, in %c : i16, in %s : i1, out o : i16) {
  %z = hw.constant 0 : i8
  %0 = comb.concat %z, %a : i8, i8
  %k = hw.constant 5 : i16
  %1 = comb.modu %0, %k : i16
  hw.output %1 : i16
}
// -----
// comb.divs keeps the zeros
hw.module @T(in %a : i8, in %b : i16, in %c : i16, in %s : i1, out o : i16) {
  %z = hw.constant 0 : i8
  %0 = comb.concat %z, %a : i8, i8
  %k = hw.constant 5 : i16
  %1 = comb.divs %0, %k : i16
  hw.output %1 : i16
}
// -----
// comb.mods keeps the zeros
hw.module @T(in %a : i8, in %b : i16, in %c : i16, in %s : i1, out o : i16) {
  %z = hw.constant 0 : i8
  %0 = comb.concat %z, %a : i8, i8
  %k = hw.constant 5 : i16
  %1 = comb.mods %0, %k : i16
  hw.output %1 : i16
}
// -----
// comb.shl: what is shifted
hw.module @T(in %a : i8, in %b : i16, in %c : i16, in %s : i1, out o : i16) {
  %z = hw.constant 0 : i8
  %0 = comb.concat %z, %a : i8, i8
  %1 = comb.shl %0, %b : i16
  hw.output %1 : i16
}
// -----
// comb.shl: the amount keeps the zeros
hw.module @T(in %a : i8, in %b : i16, in %c : i16, in %s : i1, out o : i16) {
  %z = hw.constant 0 : i8
  %0 = comb.concat %z, %a : i8, i8
  %1 = comb.shl %b, %0 : i16
  hw.output %1 : i16
}
// -----
// comb.shru: what is shifted
hw.module @T(in %a : i8, in %b : i16, in %c : i16, in %s : i1, out o : i16) {
  %z = hw.constant 0 : i8
  %0 = comb.concat %z, %a : i8, i8
  %1 = comb.shru %0, %b : i16
  hw.output %1 : i16
}
// -----
// comb.shru: the amount keeps the zeros
hw.module @T(in %a : i8, in %b : i16, in %c : i16, in %s : i1, out o : i16) {
  %z = hw.constant 0 : i8
  %0 = comb.concat %z, %a : i8, i8
  %1 = comb.shru %b, %0 : i16
  hw.output %1 : i16
}
// -----
// comb.shrs keeps the zeros of what is shifted
hw.module @T(in %a : i8, in %b : i16, in %c : i16, in %s : i1, out o : i16) {
  %z = hw.constant 0 : i8
  %0 = comb.concat %z, %a : i8, i8
  %1 = comb.shrs %0, %b : i16
  hw.output %1 : i16
}
// -----
// comb.shrs: the amount keeps the zeros
hw.module @T(in %a : i8, in %b : i16, in %c : i16, in %s : i1, out o : i16) {
  %z = hw.constant 0 : i8
  %0 = comb.concat %z, %a : i8, i8
  %1 = comb.shrs %b, %0 : i16
  hw.output %1 : i16
}
// -----
// comb.icmp eq: the first operand
hw.module @T(in %a : i8, in %b : i16, in %c : i16, in %s : i1, out o : i1) {
  %z = hw.constant 0 : i8
  %0 = comb.concat %z, %a : i8, i8
  %1 = comb.icmp eq %0, %b : i16
  hw.output %1 : i1
}
// -----
// comb.icmp eq: the second operand
hw.module @T(in %a : i8, in %b : i16, in %c : i16, in %s : i1, out o : i1) {
  %z = hw.constant 0 : i8
  %0 = comb.concat %z, %a : i8, i8
  %1 = comb.icmp eq %b, %0 : i16
  hw.output %1 : i1
}
// -----
// comb.icmp ne: the first operand
hw.module @T(in %a : i8, in %b : i16, in %c : i16, in %s : i1, out o : i1) {
  %z = hw.constant 0 : i8
  %0 = comb.concat %z, %a : i8, i8
  %1 = comb.icmp ne %0, %b : i16
  hw.output %1 : i1
}
// -----
// comb.icmp ne: the second operand
hw.module @T(in %a : i8, in %b : i16, in %c : i16, in %s : i1, out o : i1) {
  %z = hw.constant 0 : i8
  %0 = comb.concat %z, %a : i8, i8
  %1 = comb.icmp ne %b, %0 : i16
  hw.output %1 : i1
}
// -----
// comb.icmp ult: the first operand
hw.module @T(in %a : i8, in %b : i16, in %c : i16, in %s : i1, out o : i1) {
  %z = hw.constant 0 : i8
  %0 = comb.concat %z, %a : i8, i8
  %1 = comb.icmp ult %0, %b : i16
  hw.output %1 : i1
}
// -----
// comb.icmp ult: the second operand
hw.module @T(in %a : i8, in %b : i16, in %c : i16, in %s : i1, out o : i1) {
  %z = hw.constant 0 : i8
  %0 = comb.concat %z, %a : i8, i8
  %1 = comb.icmp ult %b, %0 : i16
  hw.output %1 : i1
}
// -----
// comb.icmp ule: the first operand
hw.module @T(in %a : i8, in %b : i16, in %c : i16, in %s : i1, out o : i1) {
  %z = hw.constant 0 : i8
  %0 = comb.concat %z, %a : i8, i8
  %1 = comb.icmp ule %0, %b : i16
  hw.output %1 : i1
}
// -----
// comb.icmp ule: the second operand
hw.module @T(in %a : i8, in %b : i16, in %c : i16, in %s : i1, out o : i1) {
  %z = hw.constant 0 : i8
  %0 = comb.concat %z, %a : i8, i8
  %1 = comb.icmp ule %b, %0 : i16
  hw.output %1 : i1
}
// -----
// comb.icmp ugt: the first operand
hw.module @T(in %a : i8, in %b : i16, in %c : i16, in %s : i1, out o : i1) {
  %z = hw.constant 0 : i8
  %0 = comb.concat %z, %a : i8, i8
  %1 = comb.icmp ugt %0, %b : i16
  hw.output %1 : i1
}
// -----
// comb.icmp ugt: the second operand
hw.module @T(in %a : i8, in %b : i16, in %c : i16, in %s : i1, out o : i1) {
  %z = hw.constant 0 : i8
  %0 = comb.concat %z, %a : i8, i8
  %1 = comb.icmp ugt %b, %0 : i16
  hw.output %1 : i1
}
// -----
// comb.icmp uge: the first operand
hw.module @T(in %a : i8, in %b : i16, in %c : i16, in %s : i1, out o : i1) {
  %z = hw.constant 0 : i8
  %0 = comb.concat %z, %a : i8, i8
  %1 = comb.icmp uge %0, %b : i16
  hw.output %1 : i1
}
// -----
// comb.icmp uge: the second operand
hw.module @T(in %a : i8, in %b : i16, in %c : i16, in %s : i1, out o : i1) {
  %z = hw.constant 0 : i8
  %0 = comb.concat %z, %a : i8, i8
  %1 = comb.icmp uge %b, %0 : i16
  hw.output %1 : i1
}
// -----
// comb.icmp ceq: the first operand
hw.module @T(in %a : i8, in %b : i16, in %c : i16, in %s : i1, out o : i1) {
  %z = hw.constant 0 : i8
  %0 = comb.concat %z, %a : i8, i8
  %1 = comb.icmp ceq %0, %b : i16
  hw.output %1 : i1
}
// -----
// comb.icmp ceq: the second operand
hw.module @T(in %a : i8, in %b : i16, in %c : i16, in %s : i1, out o : i1) {
  %z = hw.constant 0 : i8
  %0 = comb.concat %z, %a : i8, i8
  %1 = comb.icmp ceq %b, %0 : i16
  hw.output %1 : i1
}
// -----
// comb.icmp cne: the first operand
hw.module @T(in %a : i8, in %b : i16, in %c : i16, in %s : i1, out o : i1) {
  %z = hw.constant 0 : i8
  %0 = comb.concat %z, %a : i8, i8
  %1 = comb.icmp cne %0, %b : i16
  hw.output %1 : i1
}
// -----
// comb.icmp cne: the second operand
hw.module @T(in %a : i8, in %b : i16, in %c : i16, in %s : i1, out o : i1) {
  %z = hw.constant 0 : i8
  %0 = comb.concat %z, %a : i8, i8
  %1 = comb.icmp cne %b, %0 : i16
  hw.output %1 : i1
}
// -----
// comb.icmp weq: the first operand
hw.module @T(in %a : i8, in %b : i16, in %c : i16, in %s : i1, out o : i1) {
  %z = hw.constant 0 : i8
  %0 = comb.concat %z, %a : i8, i8
  %1 = comb.icmp weq %0, %b : i16
  hw.output %1 : i1
}
// -----
// comb.icmp weq: the second operand
hw.module @T(in %a : i8, in %b : i16, in %c : i16, in %s : i1, out o : i1) {
  %z = hw.constant 0 : i8
  %0 = comb.concat %z, %a : i8, i8
  %1 = comb.icmp weq %b, %0 : i16
  hw.output %1 : i1
}
// -----
// comb.icmp wne: the first operand
hw.module @T(in %a : i8, in %b : i16, in %c : i16, in %s : i1, out o : i1) {
  %z = hw.constant 0 : i8
  %0 = comb.concat %z, %a : i8, i8
  %1 = comb.icmp wne %0, %b : i16
  hw.output %1 : i1
}
// -----
// comb.icmp wne: the second operand
hw.module @T(in %a : i8, in %b : i16, in %c : i16, in %s : i1, out o : i1) {
  %z = hw.constant 0 : i8
  %0 = comb.concat %z, %a : i8, i8
  %1 = comb.icmp wne %b, %0 : i16
  hw.output %1 : i1
}
// -----
// comb.icmp slt keeps the zeros of the first operand
hw.module @T(in %a : i8, in %b : i16, in %c : i16, in %s : i1, out o : i1) {
  %z = hw.constant 0 : i8
  %0 = comb.concat %z, %a : i8, i8
  %1 = comb.icmp slt %0, %b : i16
  hw.output %1 : i1
}
// -----
// comb.icmp slt keeps the zeros of the second operand
hw.module @T(in %a : i8, in %b : i16, in %c : i16, in %s : i1, out o : i1) {
  %z = hw.constant 0 : i8
  %0 = comb.concat %z, %a : i8, i8
  %1 = comb.icmp slt %b, %0 : i16
  hw.output %1 : i1
}
// -----
// comb.icmp sle keeps the zeros of the first operand
hw.module @T(in %a : i8, in %b : i16, in %c : i16, in %s : i1, out o : i1) {
  %z = hw.constant 0 : i8
  %0 = comb.concat %z, %a : i8, i8
  %1 = comb.icmp sle %0, %b : i16
  hw.output %1 : i1
}
// -----
// comb.icmp sle keeps the zeros of the second operand
hw.module @T(in %a : i8, in %b : i16, in %c : i16, in %s : i1, out o : i1) {
  %z = hw.constant 0 : i8
  %0 = comb.concat %z, %a : i8, i8
  %1 = comb.icmp sle %b, %0 : i16
  hw.output %1 : i1
}
// -----
// comb.icmp sgt keeps the zeros of the first operand
hw.module @T(in %a : i8, in %b : i16, in %c : i16, in %s : i1, out o : i1) {
  %z = hw.constant 0 : i8
  %0 = comb.concat %z, %a : i8, i8
  %1 = comb.icmp sgt %0, %b : i16
  hw.output %1 : i1
}
// -----
// comb.icmp sgt keeps the zeros of the second operand
hw.module @T(in %a : i8, in %b : i16, in %c : i16, in %s : i1, out o : i1) {
  %z = hw.constant 0 : i8
  %0 = comb.concat %z, %a : i8, i8
  %1 = comb.icmp sgt %b, %0 : i16
  hw.output %1 : i1
}
// -----
// comb.icmp sge keeps the zeros of the first operand
hw.module @T(in %a : i8, in %b : i16, in %c : i16, in %s : i1, out o : i1) {
  %z = hw.constant 0 : i8
  %0 = comb.concat %z, %a : i8, i8
  %1 = comb.icmp sge %0, %b : i16
  hw.output %1 : i1
}
// -----
// comb.icmp sge keeps the zeros of the second operand
hw.module @T(in %a : i8, in %b : i16, in %c : i16, in %s : i1, out o : i1) {
  %z = hw.constant 0 : i8
  %0 = comb.concat %z, %a : i8, i8
  %1 = comb.icmp sge %b, %0 : i16
  hw.output %1 : i1
}
// -----
// a comparison with a literal
hw.module @T(in %a : i8, in %b : i16, in %c : i16, in %s : i1, out o : i1) {
  %z = hw.constant 0 : i8
  %0 = comb.concat %z, %a : i8, i8
  %k = hw.constant 5 : i16
  %1 = comb.icmp eq %0, %k : i16
  hw.output %1 : i1
}
// -----
// a comparison with a sum keeps the zeros
hw.module @T(in %a : i8, in %b : i16, in %c : i16, in %s : i1, out o : i1) {
  %z = hw.constant 0 : i8
  %0 = comb.concat %z, %a : i8, i8
  %2 = comb.add %b, %c : i16
  %1 = comb.icmp ult %0, %2 : i16
  hw.output %1 : i1
}
// -----
// a comparison of a sum with a name
hw.module @T(in %a : i8, in %b : i16, in %c : i16, in %s : i1, out o : i1) {
  %z = hw.constant 0 : i8
  %0 = comb.concat %z, %a : i8, i8
  %2 = comb.add %0, %b : i16
  %1 = comb.icmp ult %2, %c : i16
  hw.output %1 : i1
}
// -----
// a comparison of a sum with a sum keeps the zeros
hw.module @T(in %a : i8, in %b : i16, in %c : i16, in %s : i1, out o : i1) {
  %z = hw.constant 0 : i8
  %0 = comb.concat %z, %a : i8, i8
  %2 = comb.add %0, %b : i16
  %3 = comb.add %b, %c : i16
  %1 = comb.icmp ult %2, %3 : i16
  hw.output %1 : i1
}
// -----
// a comparison of two zero extensions keeps the zeros of both
hw.module @T(in %a : i8, in %b : i16, in %c : i16, in %s : i1, out o : i1) {
  %z = hw.constant 0 : i8
  %0 = comb.concat %z, %a : i8, i8
  %2 = comb.concat %z, %a : i8, i8
  %1 = comb.icmp ult %0, %2 : i16
  hw.output %1 : i1
}
// -----
// a comparison of names with a sum beside it
hw.module @T(in %a : i8, in %b : i16, in %c : i16, in %s : i1, out o : i1) {
  %z = hw.constant 0 : i8
  %0 = comb.concat %z, %a : i8, i8
  %1 = comb.icmp ult %b, %c : i16
  hw.output %1 : i1
}
// -----
// comb.parity keeps the zeros
hw.module @T(in %a : i8, in %b : i16, in %c : i16, in %s : i1, out o : i1) {
  %z = hw.constant 0 : i8
  %0 = comb.concat %z, %a : i8, i8
  %1 = comb.parity %0 : i16
  hw.output %1 : i1
}
// -----
// comb.extract of all bits
hw.module @T(in %a : i8, in %b : i16, in %c : i16, in %s : i1, out o : i16) {
  %z = hw.constant 0 : i8
  %0 = comb.concat %z, %a : i8, i8
  %1 = comb.extract %0 from 0 : (i16) -> i16
  hw.output %1 : i16
}
// -----
// comb.extract of some bits: the wire has no zeros
hw.module @T(in %a : i8, in %b : i16, in %c : i16, in %s : i1, out o : i8) {
  %z = hw.constant 0 : i8
  %0 = comb.concat %z, %a : i8, i8
  %1 = comb.extract %0 from 4 : (i16) -> i8
  hw.output %1 : i8
}
// -----
// comb.concat keeps the zeros of the first operand
hw.module @T(in %a : i8, in %b : i16, in %c : i16, in %s : i1, out o : i32) {
  %z = hw.constant 0 : i8
  %0 = comb.concat %z, %a : i8, i8
  %1 = comb.concat %0, %b : i16, i16
  hw.output %1 : i32
}
// -----
// comb.concat keeps the zeros of the second operand
hw.module @T(in %a : i8, in %b : i16, in %c : i16, in %s : i1, out o : i32) {
  %z = hw.constant 0 : i8
  %0 = comb.concat %z, %a : i8, i8
  %1 = comb.concat %b, %0 : i16, i16
  hw.output %1 : i32
}
// -----
// comb.concat keeps the zeros of the only operand
hw.module @T(in %a : i8, in %b : i16, in %c : i16, in %s : i1, out o : i16) {
  %z = hw.constant 0 : i8
  %0 = comb.concat %z, %a : i8, i8
  %1 = comb.concat %0 : i16
  hw.output %1 : i16
}
// -----
// comb.replicate keeps the zeros
hw.module @T(in %a : i8, in %b : i16, in %c : i16, in %s : i1, out o : i32) {
  %z = hw.constant 0 : i8
  %0 = comb.concat %z, %a : i8, i8
  %1 = comb.replicate %0 : (i16) -> i32
  hw.output %1 : i32
}
// -----
// comb.mux: the second operand
hw.module @T(in %a : i8, in %b : i16, in %c : i16, in %s : i1, out o : i16) {
  %z = hw.constant 0 : i8
  %0 = comb.concat %z, %a : i8, i8
  %1 = comb.mux %s, %0, %b : i16
  hw.output %1 : i16
}
// -----
// comb.mux: the third operand
hw.module @T(in %a : i8, in %b : i16, in %c : i16, in %s : i1, out o : i16) {
  %z = hw.constant 0 : i8
  %0 = comb.concat %z, %a : i8, i8
  %1 = comb.mux %s, %b, %0 : i16
  hw.output %1 : i16
}
// -----
// comb.mux: a comparison in the condition
hw.module @T(in %a : i8, in %b : i16, in %c : i16, in %s : i1, out o : i16) {
  %z = hw.constant 0 : i8
  %0 = comb.concat %z, %a : i8, i8
  %2 = comb.icmp ult %0, %b : i16
  %1 = comb.mux %2, %b, %c : i16
  hw.output %1 : i16
}
// -----
// comb.mux: a comparison of zero extensions in the condition keeps the zeros
hw.module @T(in %a : i8, in %b : i16, in %c : i16, in %s : i1, out o : i16) {
  %z = hw.constant 0 : i8
  %0 = comb.concat %z, %a : i8, i8
  %2 = comb.concat %z, %a : i8, i8
  %4 = comb.concat %z, %a : i8, i8
  %3 = comb.icmp ult %2, %4 : i16
  %1 = comb.mux %3, %0, %c : i16
  hw.output %1 : i16
}
// -----
// hw.bitcast
hw.module @T(in %a : i8, in %b : i16, in %c : i16, in %s : i1, out o : i16) {
  %z = hw.constant 0 : i8
  %0 = comb.concat %z, %a : i8, i8
  %1 = hw.bitcast %0 : (i16) -> i16
  hw.output %1 : i16
}
// -----
// hw.wire
hw.module @T(in %a : i8, in %b : i16, in %c : i16, in %s : i1, out o : i16) {
  %z = hw.constant 0 : i8
  %0 = comb.concat %z, %a : i8, i8
  %w = hw.wire %0 : i16
  %1 = comb.add %w, %b : i16
  hw.output %1 : i16
}
// -----
// an output
hw.module @T(in %a : i8, in %b : i16, in %c : i16, in %s : i1, out o : i16) {
  %z = hw.constant 0 : i8
  %0 = comb.concat %z, %a : i8, i8
  hw.output %0 : i16
}
// -----
// a product in a sum
hw.module @T(in %a : i8, in %b : i16, in %c : i16, in %s : i1, out o : i16) {
  %z = hw.constant 0 : i8
  %0 = comb.concat %z, %a : i8, i8
  %2 = comb.mul %0, %b : i16
  %1 = comb.add %2, %c : i16
  hw.output %1 : i16
}
// -----
// a shift of a sum
hw.module @T(in %a : i8, in %b : i16, in %c : i16, in %s : i1, out o : i16) {
  %z = hw.constant 0 : i8
  %0 = comb.concat %z, %a : i8, i8
  %2 = comb.add %0, %b : i16
  %1 = comb.shl %2, %c : i16
  hw.output %1 : i16
}
// -----
// an arithmetic shift of a sum keeps the zeros
hw.module @T(in %a : i8, in %b : i16, in %c : i16, in %s : i1, out o : i16) {
  %z = hw.constant 0 : i8
  %0 = comb.concat %z, %a : i8, i8
  %2 = comb.add %0, %b : i16
  %1 = comb.shrs %2, %c : i16
  hw.output %1 : i16
}
// -----
// a shift by a sum keeps the zeros
hw.module @T(in %a : i8, in %b : i16, in %c : i16, in %s : i1, out o : i16) {
  %z = hw.constant 0 : i8
  %0 = comb.concat %z, %a : i8, i8
  %2 = comb.add %0, %b : i16
  %1 = comb.shl %c, %2 : i16
  hw.output %1 : i16
}
// -----
// a sum joined with a name keeps the zeros
hw.module @T(in %a : i8, in %b : i16, in %c : i16, in %s : i1, out o : i32) {
  %z = hw.constant 0 : i8
  %0 = comb.concat %z, %a : i8, i8
  %2 = comb.add %0, %b : i16
  %1 = comb.concat %2, %c : i16, i16
  hw.output %1 : i32
}
// -----
// the parity of a sum keeps the zeros
hw.module @T(in %a : i8, in %b : i16, in %c : i16, in %s : i1, out o : i1) {
  %z = hw.constant 0 : i8
  %0 = comb.concat %z, %a : i8, i8
  %2 = comb.add %0, %b : i16
  %1 = comb.parity %2 : i16
  hw.output %1 : i1
}
// -----
// a sum with an arithmetic shift
hw.module @T(in %a : i8, in %b : i16, in %c : i16, in %s : i1, out o : i16) {
  %z = hw.constant 0 : i8
  %0 = comb.concat %z, %a : i8, i8
  %2 = comb.shrs %b, %c : i16
  %1 = comb.add %0, %2 : i16
  hw.output %1 : i16
}
// -----
// a choice in a sum
hw.module @T(in %a : i8, in %b : i16, in %c : i16, in %s : i1, out o : i16) {
  %z = hw.constant 0 : i8
  %0 = comb.concat %z, %a : i8, i8
  %2 = comb.mux %s, %0, %b : i16
  %1 = comb.add %2, %c : i16
  hw.output %1 : i16
}
// -----
// a zero extension of one without a wire keeps all zeros
hw.module @T(in %a : i8, in %b : i16, in %c : i16, in %s : i1, out o : i32) {
  %z = hw.constant 0 : i8
  %0 = comb.concat %z, %a : i8, i8
  %y = hw.constant 0 : i16
  %1 = comb.concat %y, %0 : i16, i16
  hw.output %1 : i32
}
// -----
// a zero extension of one with a wire: neither has zeros
hw.module @T(in %a : i8, in %b : i16, in %c : i16, in %s : i1, out o : i32) {
  %z = hw.constant 0 : i8
  %0 = comb.concat %z, %a : i8, i8
  %y = hw.constant 0 : i16
  %w = hw.wire %0 : i16
  %1 = comb.concat %y, %w : i16, i16
  hw.output %1 : i32
}
// -----
// a zero extension that is used twice has a wire
hw.module @T(in %a : i8, in %b : i16, in %c : i16, in %s : i1, out o : i16) {
  %z = hw.constant 0 : i8
  %0 = comb.concat %z, %a : i8, i8
  %1 = comb.mul %0, %0 : i16
  hw.output %1 : i16
}
// -----
// a zero extension with a hint has a wire
hw.module @T(in %a : i8, in %b : i16, in %c : i16, in %s : i1, out o : i16) {
  %z = hw.constant 0 : i8
  %0 = comb.concat %z, %a {sv.namehint = "x"} : i8, i8
  %1 = comb.add %0, %b : i16
  hw.output %1 : i16
}
// -----
// a sum keeps its zeros, since it carries
hw.module @T(in %a : i8, in %b : i16, in %c : i16, in %s : i1, out o : i16) {
  %z = hw.constant 0 : i8
  %2 = comb.add %a, %a : i8
  %0 = comb.concat %z, %2 : i8, i8
  %1 = comb.add %0, %b : i16
  hw.output %1 : i16
}
// -----
// a sum with a wire
hw.module @T(in %a : i8, in %b : i16, in %c : i16, in %s : i1, out o : i16) {
  %z = hw.constant 0 : i8
  %2 = comb.add %a, %a {sv.namehint = "x"} : i8
  %0 = comb.concat %z, %2 : i8, i8
  %1 = comb.add %0, %b : i16
  hw.output %1 : i16
}
// -----
// a literal
hw.module @T(in %a : i8, in %b : i16, in %c : i16, in %s : i1, out o : i16) {
  %z = hw.constant 0 : i8
  %k = hw.constant 5 : i8
  %0 = comb.concat %z, %k : i8, i8
  %1 = comb.add %0, %b : i16
  hw.output %1 : i16
}
// -----
// an or of one name, which prints nothing
hw.module @T(in %a : i8, in %b : i16, in %c : i16, in %s : i1, out o : i16) {
  %z = hw.constant 0 : i8
  %2 = comb.or %a : i8
  %0 = comb.concat %z, %2 : i8, i8
  %1 = comb.add %0, %b : i16
  hw.output %1 : i16
}
// -----
// an arithmetic shift keeps its zeros
hw.module @T(in %a : i8, in %b : i16, in %c : i16, in %s : i1, out o : i16) {
  %z = hw.constant 0 : i8
  %2 = comb.shrs %a, %a : i8
  %0 = comb.concat %z, %2 : i8, i8
  %1 = comb.add %0, %b : i16
  hw.output %1 : i16
}
// -----
// another constant than zero stays
hw.module @T(in %a : i8, in %b : i16, in %c : i16, in %s : i1, out o : i16) {
  %z = hw.constant 0 : i8
  %y = hw.constant 1 : i8
  %0 = comb.concat %y, %a : i8, i8
  %1 = comb.add %0, %b : i16
  hw.output %1 : i16
}
// -----
// a zero that is no constant itself stays
hw.module @T(in %a : i8, in %b : i16, in %c : i16, in %s : i1, out o : i16) {
  %z = hw.constant 0 : i8
  %y = comb.or %z : i8
  %0 = comb.concat %y, %a : i8, i8
  %1 = comb.add %0, %b : i16
  hw.output %1 : i16
}
// -----
// zeros behind a name stay
hw.module @T(in %a : i8, in %b : i16, in %c : i16, in %s : i1, out o : i16) {
  %z = hw.constant 0 : i8
  %0 = comb.concat %a, %z : i8, i8
  %1 = comb.add %0, %b : i16
  hw.output %1 : i16
}
// -----
// a part of a name keeps its zeros
hw.module @T(in %a : i8, in %b : i16, in %c : i16, in %s : i1, out o : i16) {
  %y = hw.constant 0 : i12
  %e = comb.extract %a from 0 : (i8) -> i4
  %0 = comb.concat %y, %e : i12, i4
  %1 = comb.add %0, %b : i16
  hw.output %1 : i16
}
// -----
// three parts keep their zeros
hw.module @T(in %a : i8, in %b : i16, in %c : i16, in %s : i1, out o : i16) {
  %y = hw.constant 0 : i4
  %0 = comb.concat %y, %y, %a : i4, i4, i8
  %1 = comb.add %0, %b : i16
  hw.output %1 : i16
}
// -----
// a zero constant with a wire
hw.module @T(in %a : i8, in %b : i16, in %c : i16, in %s : i1, out o : i16) {
  %z = hw.constant 0 : i8
  %e = comb.extract %z from 0 : (i8) -> i4
  %f = comb.concat %e, %e, %a : i4, i4, i8
  %0 = comb.concat %z, %a : i8, i8
  %1 = comb.add %0, %f : i16
  hw.output %1 : i16
}
// -----
// a register
hw.module @T(in %clk : !seq.clock, in %rst : i1, in %en : i1, in %a : i8, in %b : i16, out q : i16) {
  %z = hw.constant 0 : i8
  %0 = comb.concat %z, %a : i8, i8
  %r = seq.compreg %0, %clk : i16
  hw.output %r : i16
}
// -----
// a register with an enable and a reset
hw.module @T(in %clk : !seq.clock, in %rst : i1, in %en : i1, in %a : i8, in %b : i16, out q : i16) {
  %z = hw.constant 0 : i8
  %0 = comb.concat %z, %a : i8, i8
  %k = hw.constant 9 : i16
  %r = seq.compreg.ce %0, %clk, %en reset %rst, %k : i16
  hw.output %r : i16
}
// -----
// a register with comparisons as enable and reset
hw.module @T(in %clk : !seq.clock, in %rst : i1, in %en : i1, in %a : i8, in %b : i16, out q : i16) {
  %z = hw.constant 0 : i8
  %0 = comb.concat %z, %a : i8, i8
  %k = hw.constant 9 : i16
  %2 = comb.icmp ult %3, %b : i16
  %3 = comb.concat %z, %a : i8, i8
  %4 = comb.icmp eq %5, %b : i16
  %5 = comb.concat %z, %a : i8, i8
  %r = seq.compreg.ce %b, %clk, %2 reset %4, %k : i16
  hw.output %r : i16
}
// -----
// a zero extension at a port of an instance has a wire
hw.module private @D(in %x : i16, out y : i16) {
  hw.output %x : i16
}
hw.module @T(in %a : i8, in %b : i16, out o : i16) {
  %z = hw.constant 0 : i8
  %0 = comb.concat %z, %a : i8, i8
  %u.y = hw.instance "u" @D(x: %0: i16) -> (y: i16)
  hw.output %u.y : i16
}
// -----
// a sum at a port of an instance has a wire
hw.module private @D(in %x : i16, out y : i16) {
  hw.output %x : i16
}
hw.module @T(in %a : i8, in %b : i16, out o : i16) {
  %z = hw.constant 0 : i8
  %0 = comb.concat %z, %a : i8, i8
  %1 = comb.add %0, %b : i16
  %u.y = hw.instance "u" @D(x: %1: i16) -> (y: i16)
  hw.output %u.y : i16
}
// -----
// what an instance gives, in a sum
hw.module private @D(in %x : i16, out y : i16) {
  hw.output %x : i16
}
hw.module @T(in %a : i8, in %b : i16, out o : i16) {
  %z = hw.constant 0 : i8
  %0 = comb.concat %z, %a : i8, i8
  %1 = comb.add %0, %u.y : i16
  %u.y = hw.instance "u" @D(x: %b: i16) -> (y: i16)
  hw.output %1 : i16
}
// -----
// a register with a zero extension as its reset value
hw.module @T(in %clk : !seq.clock, in %rst : i1, in %en : i1, in %a : i8, in %b : i16, out q : i16) {
  %z = hw.constant 0 : i8
  %0 = comb.concat %z, %a : i8, i8
  %r = seq.compreg %b, %clk reset %rst, %0 : i16
  hw.output %r : i16
}
