; integers of several widths, as LLVM writes them
source_filename = "numbers"

define i64 @largest() {
  ret i64 9223372036854775807
}

define i64 @minus_one() {
entry:
  ret i64 -1
}

define i1 @yes() {
0:
  ret i1 true
}
