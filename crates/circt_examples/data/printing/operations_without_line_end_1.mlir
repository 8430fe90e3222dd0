// comments, tabs, line ends within a header, and no blanks
// a comment
hw.module	@S ( in %a:i08 ,
 out  o:i8 ){//x
%x=comb.add %a,%a:i8
hw.output %x:i8}