; bare names that are no identifiers, names between quotes, with escapes too; two symbols that ask for one identifier
source_filename = "dir/names of.c"

define i32 @max.of$two(i32 %a.1, i32 %"b \22") {
  %"a > b" = icmp sgt i32 %a.1, %"\62 \22"
  br i1 %"a > b", label %"take a", label %-

"take a":
  br label %-

-:
  %"é" = phi i32 [ %a.1, %"take a" ], [ %"b \22", %0 ]
  ret i32 %"\C3\A9"
}

define void @"max of\\two"() {
  ret void
}
