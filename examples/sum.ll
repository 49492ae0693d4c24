define i32 @g(i32 %a, i32 %b) {
  %s = add nsw i32 %a, %b
  %t = add i32 %s, 5
  ret i32 %t
}
