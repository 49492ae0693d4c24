; Structs with a name: in any order, in each other and held by values, and one that no value holds.
%node = type { i32, ptr }
%pair = type { %node, [2 x %"a file"] }
%"a file" = type <{ i8, %2 }>
%2 = type {}
%handle = type opaque
%a.file = type { %pair }
%long = type { fp128 }

define %node @next(%node %node, i1 %"a file", { %pair, i8 } %pair) {
entry:
  %x = freeze %node %node
  br i1 %"a file", label %node2, label %exit

node2:
  %y = select i1 %"a file", %node %x, %node %node
  br label %exit

exit:
  %z = phi %node [ %x, %entry ], [ %y, %node2 ]
  ret %node %z
}

define [3 x %a.file] @handle([3 x %a.file] %0, { ptr, %handle } %1) {
  ret [3 x %a.file] %0
}
