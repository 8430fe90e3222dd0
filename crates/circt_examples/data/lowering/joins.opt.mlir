// array_create of one element
module {
  hw.module @T(in %a : i8, out o_0 : i8) {
    hw.output %a : i8
  }
}
// -----
// array_create of two elements: the first operand has the highest index
module {
  hw.module @T(in %a : i8, in %b : i8, out o_1 : i8, out o_0 : i8) {
    hw.output %a, %b : i8, i8
  }
}
// -----
// array_create of three structs
module {
  hw.module @T(in %a_x : i8, in %a_y : i4, in %b_x : i8, in %b_y : i4, out o_2_x : i8, out o_2_y : i4, out o_1_x : i8, out o_1_y : i4, out o_0_x : i8, out o_0_y : i4) {
    hw.output %a_x, %a_y, %b_x, %b_y, %a_x, %a_y : i8, i4, i8, i4, i8, i4
  }
}
// -----
// array_concat of arrays of two, one and three elements
module {
  hw.module @T(in %a_1 : i8, in %a_0 : i8, in %b_0 : i8, in %c_2 : i8, in %c_1 : i8, in %c_0 : i8, out o_5 : i8, out o_4 : i8, out o_3 : i8, out o_2 : i8, out o_1 : i8, out o_0 : i8) {
    hw.output %a_1, %a_0, %b_0, %c_2, %c_1, %c_0 : i8, i8, i8, i8, i8, i8
  }
}
// -----
// array_concat of one array, and array_create of five elements
module {
  hw.module @T(in %a : i8, in %b : i8, out o_4 : i8, out o_3 : i8, out o_2 : i8, out o_1 : i8, out o_0 : i8, out p_4 : i8, out p_3 : i8, out p_2 : i8, out p_1 : i8, out p_0 : i8) {
    hw.output %b, %a, %a, %a, %b, %b, %a, %a, %a, %b : i8, i8, i8, i8, i8, i8, i8, i8, i8, i8
  }
}
// -----
// struct_create: the first field is the first leaf
module {
  hw.module @T(in %a : i8, in %b : i4, out o_x : i8, out o_y : i4) {
    hw.output %a, %b : i8, i4
  }
}
// -----
// struct_extract of both fields
module {
  hw.module @T(in %s_x : i8, in %s_y : i8, out o : i8) {
    %0 = comb.sub %s_y, %s_x : i8
    hw.output %0 : i8
  }
}
// -----
// struct_inject of the middle field of three
module {
  hw.module @T(in %s_x : i8, in %s_y : i4, in %s_z : i8, in %v : i4, out o_x : i8, out o_y : i4, out o_z : i8) {
    hw.output %s_x, %v, %s_z : i8, i4, i8
  }
}
// -----
// struct_inject and struct_extract of a field of structs in an array
module {
  hw.module @T(in %s_p : i4, in %s_q_1_x : i8, in %s_q_1_y : i1, in %s_q_0_x : i8, in %s_q_0_y : i1, in %v_1_x : i8, in %v_1_y : i1, in %v_0_x : i8, in %v_0_y : i1, out o_p : i4, out o_q_1_x : i8, out o_q_1_y : i1, out o_q_0_x : i8, out o_q_0_y : i1, out e_1_x : i8, out e_1_y : i1, out e_0_x : i8, out e_0_y : i1) {
    hw.output %s_p, %v_1_x, %v_1_y, %v_0_x, %v_0_y, %s_q_1_x, %s_q_1_y, %s_q_0_x, %s_q_0_y : i4, i8, i1, i8, i1, i8, i1, i8, i1
  }
}
// -----
// several results, one of an aggregate type, above the operation that gives them
module {
  hw.module @T(in %s_x_1 : i8, in %s_x_0 : i8, in %s_y : i8, in %a : i8, out o : i8, out p_2 : i8, out p_1 : i8, out p_0 : i8) {
    %0 = comb.add %s_y, %a : i8
    hw.output %0, %s_x_1, %s_x_0, %0 : i8, i8, i8, i8
  }
}
// -----
// what nothing uses leaves nothing
module {
  hw.module @T(in %s_x : i8, in %s_y : i8, in %a : i8) {
    hw.output
  }
}
// -----
// a chain of struct_inject, each below the one whose result it takes
module {
  hw.module @T(in %s_x : i8, in %s_y : i8, in %v : i8, out o : i8, out p_x : i8, out p_y : i8) {
    %0 = comb.sub %s_y, %v : i8
    hw.output %0, %v, %s_y : i8, i8, i8
  }
}
// -----
// a chain of struct_inject, each above the one whose result it takes
module {
  hw.module @T(in %s_x : i8, in %s_y : i8, in %v : i8, out o : i8, out p_x : i8, out p_y : i8) {
    %0 = comb.sub %s_y, %v : i8
    hw.output %0, %v, %s_y : i8, i8, i8
  }
}
// -----
// struct_inject in no order: what is taken in the end stands between them
module {
  hw.module @T(in %a : i8, in %b : i8, out o_x : i8, out o_y : i8, out q_1_x : i8, out q_1_y : i8, out q_0_x : i8, out q_0_y : i8) {
    %0 = comb.sub %b, %a : i8
    hw.output %0, %b, %0, %b, %0, %b : i8, i8, i8, i8, i8, i8
  }
}
