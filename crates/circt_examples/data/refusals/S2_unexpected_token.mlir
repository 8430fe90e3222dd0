// S2: two types after comb.add
hw.module @M(in %a : i8) {
%0 = comb.add %a, %a : i8, i8
// -----
// S2: a type after hw.output without operands
hw.module @M(in %a : i8) {
hw.output : i8
// -----
// S2: the end of the text in place of a type
hw.module @M(in %a : i8) {
  hw.output %a :
// -----
// S2: the end of the text after an operation
hw.module @M(in %a : i8) {
hw.output %a : i8
// -----
// S2: a dictionary in place of the operands
hw.module @M(in %a : i8) {
%0 = comb.add {a} %a
// -----
// S2: two dictionaries, before and after the type
hw.module @M(in %a : i8) {
%0 = comb.add %a, %a {a} : i8 {b}
// -----
// S2: one type for two operands of comb.concat
hw.module @M(in %a : i8) {
%0 = comb.concat %a, %a : i8
hw.output
// -----
// S2: two types for one output
hw.module @M(in %a : i8) {
hw.output %a : i8, i8
// -----
// S2: a number of results before a comma
hw.module @M(in %a : i8) {
%a:2, %b = comb.add %a, %a : i8
// -----
// S2: a number of results after a comma
hw.module @M(in %a : i8) {
%a, %b:2 = comb.add %a, %a : i8
// -----
// S2: a type after true
hw.module @M(in %a : i8) {
%0 = hw.constant true : i1
// -----
// S2: comb.concat without operands
hw.module @M(in %a : i8) {
%0 = comb.concat : i8
// -----
// S2: a register's name that is a number
hw.module @M(in %a : i8) {
%0 = seq.compreg %a, %a {name = 5} : i8
// -----
// S2: a hint without a value
hw.module @M(in %a : i8) {
hw.output {sv.namehint}
// -----
// S2: an entry twice
hw.module @M(in %a : i8) {
hw.output {a, b, a}
// -----
// S2: a comma before the end of a dictionary
hw.module @M(in %a : i8) {
hw.output {a,}
// -----
// S2: a number in place of an operand
hw.module @M(in %a : i8) {
%0 = comb.add %a, 5 : i8
// -----
// S2: an operation in place of the outputs' types
hw.module @M(in %a : i8) {
hw.output
%0 = comb.nand
// -----
// S2: a word after hw.output that is no operation
hw.module @M(in %a : i8) {
hw.output
foo
// -----
// S2: an operation of another dialect after hw.output
hw.module @M(in %a : i8) {
hw.output
sv.x
// -----
// S2: module in a module
hw.module @M(in %a : i8) {
module {}
// -----
// S2: hw.module in a module
hw.module @M(in %a : i8) {
hw.module @N() {}
// -----
// S2: a predicate that is none
hw.module @M(in %a : i8) {
%0 = comb.icmp foo %a, %a : i8
// -----
// S2: a type's name in place of a value of an entry
hw.module @M(in %a : i8) {
hw.output {a = !t}
// -----
// S2: a result's number that is a name
hw.module @M(in %a : i8) {
hw.output %a#ab : i8
// -----
// S2: a field name without quotes
hw.module @M(in %a : i8) {
%0 = hw.struct_extract %a[x] : i8
// -----
// S2: a reset that is neither synchronous nor asynchronous
hw.module @M(in %a : i8) {
%0 = seq.firreg %a clock %a reset foo %a, %a : i8
// -----
// S2: a large number in place of an operand
hw.module @M(in %a : i8) {
hw.output 340282366920938463463374607431768211456
// -----
// S2: an instance's inputs without an end
hw.module @M(in %a : i8) {
hw.instance "u" @N() (
// -----
// S2: async after the reset of seq.compreg
hw.module @M(in %a : i8) {
%0 = seq.compreg %a, %a reset async %a, %a : i8
// -----
// S2: comb.add at the top
comb.add
// -----
// S2: a number at the top
5
// -----
// S2: a second module on the line
module {} module {}
// -----
// S2: module after hw.module
hw.module @M() {} module {}
// -----
// S2: the end of the text in a list of modules
module {
// -----
// S2: a port of an older header with a quoted name
hw.module @M(%a "x": i8) {}
// -----
// S2: an inout port
hw.module @M(inout %a : i8) {}
// -----
// S2: a comma before the end of the ports
hw.module @M(in %a : i8,) {}
// -----
// S2: results of an older header after ports of the newer form
hw.module @M(in %a : i8) -> () {}
// -----
// S2: a port of an older header after one of the newer form
hw.module @M(in %a : i8, %b: i8) {}
// -----
// S2: a port of the newer form after one of an older header
hw.module @M(%a: i8, out b : i8) {}
// -----
// S2: a result of an older header with a value's name
hw.module @M(%a: i8) -> (%b: i8) {}
// -----
// S2: results of an older header without parentheses
hw.module @M(%a: i8) -> b: i8 {}
// -----
// S2: a comma before the end of an older header's ports
hw.module @M(%a: i8,) {}
// -----
// S2: results of an older header twice
hw.module @M(%a: i8) -> (b: i8) -> () {}
// -----
// S2: a symbol in a symbol
hw.module @M::@N() {}
// -----
// S2: a parameter of module
module @N<x> {}
// -----
// S2: a module's hint that is a number
hw.module @M() attributes {sv.namehint = 5} {}
// -----
// S2: an entry of module twice
module attributes {a, a} {}
// -----
// S2: a port of type f32
hw.module @M(in %a : f32) {}
// -----
// S2: two types after comb.add, in a body that ends
hw.module @T(in %a : i8, out o : i8) {
  %0 = comb.add %a, %a : i8, i8
}
// -----
// S2: a type after hw.output without operands, in a body that ends
hw.module @T(in %a : i8, out o : i8) {
  hw.output : i8
}
// -----
// S2: a reset without sync or async
hw.module @T(in %clk : !seq.clock, in %r : i1, in %d : i1) {
  %q = seq.firreg %d clock %clk reset %r, %d : i1
}
// -----
// S2: a type after true, in a body that ends
hw.module @T() {
  %0 = hw.constant true : i1
}
// -----
// S2: hw.module in a module, in a body that ends
hw.module @T() {
  hw.module @A() {}
}
// -----
// S2: module after a module
hw.module @T() {}
module {}
// -----
// S2: a large number in place of an operand, in a body that ends
hw.module @T() {
  hw.output 340282366920938463463374607431768211456
}
// -----
// S2: an instance of a symbol in a symbol
hw.module @T() {
  hw.instance "u" @a::@b() -> ()
}
// -----
// S2: a type's name in place of a value of an entry, in a body that ends
hw.module @T() {
  hw.output {a = !t}
}
// -----
// S2: an inout port of 8 bits
hw.module @T(inout %a : i8) {}
// -----
// S2: comb.concat without operands, in a body that ends
hw.module @T(in %a : i8, out o : i8) {
  %0 = comb.concat : i8
}
// -----
// S2: two dictionaries, before and after the type, in a body that ends
hw.module @T(in %a : i8, out o : i8) {
  %0 = comb.add %a, %a {a} : i8 {b}
}
// -----
// S2: a comma before the end of a dictionary, in a body that ends
hw.module @T() {
  hw.output {a,}
}
// -----
// S2: results of an older header after a port of the newer form
hw.module @T(in %a : i8) -> () {}
// -----
// S2: the word public
hw.module public @T() {}
// -----
// S2: the end of the text in a module
hw.module @T() {
// -----
// S2: one type for two operands of comb.concat, before hw.output
hw.module @T(in %a : i8, out o : i8) {
  %0 = comb.concat %a, %a : i8
  hw.output %0 : i16
}
// -----
// S2: two types for one output, in a body that ends
hw.module @T(in %a : i8, out o : i8) {
  hw.output %a : i8, i8
}
// -----
// S2: an operation in place of the outputs' types, in a body that ends
hw.module @T(in %a : i8, out o : i8) {
  hw.output
  %0 = comb.add %a, %a : i8
}
// -----
// S2: an operation after hw.output
hw.module @T(in %a : i8, out o : i8) {
  hw.output %a : i8
  %0 = comb.add %a, %a : i8
}
// -----
// S2: a word after hw.output that is no operation, in a body that ends
hw.module @T(in %a : i8, out o : i8) {
  hw.output
  foo
}
// -----
// S2: a port of the newer form after one of an older header, in a module of another name
hw.module @O(%a: i8, in %b : i8) {}
// -----
// S2: a port of type f32, in a module of another name
hw.module @T(in %a : f32) {}
// -----
// S2: an entry twice, with values
hw.module @T() {
  hw.output {a = 1, a = 2}
}
// -----
// S2: two lists of modules, one below the other
module {}
module {}
// -----
// S2: a register's name that is a number, in a body that ends
hw.module @T(in %clk : !seq.clock, in %d : i1) {
  %q = seq.compreg %d, %clk {name = 5} : i1
}
// -----
// S2: a number of results before a comma, in a body that ends
hw.module @T(in %a : i8, out o : i8) {
  %x:2, %y = comb.add %a, %a : i8
}
// -----
// S2: the end of the text in place of a type, without a line end
hw.module @T(in %a : i8, out o : i8) {
  hw.output %a :