; parameters, a block and results, with a name, with a number and with neither
define i32 @mixed(i32 %a, i32, i32 %7) {
  %9 = add i32 %a, %0
  %n = add nuw i32 %9, %7
  add i32 %n, -1
  ret i32 %10
}

define void @nothing(i1 %flag) {
start:
  %unused = add i1 %flag, true
  ret void
}
