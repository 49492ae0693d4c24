; Values of types with parts: arrays, vectors and structs without a name.
define { i32, <4 x float> } @pick({ i32, <4 x float> } %a, { i32, <4 x float> } %b, i1 %c) {
entry:
  br i1 %c, label %then, label %join
then:
  %s = select i1 %c, { i32, <4 x float> } %a, { i32, <4 x float> } %b
  br label %join
join:
  %p = phi { i32, <4 x float> } [ %b, %entry ], [ %s, %then ]
  %f = freeze { i32, <4 x float> } %p
  ret { i32, <4 x float> } %f
}

define [2 x <{ i8, ptr addrspace(3) }>] @keep([2 x <{ i8, ptr addrspace(3) }>] %0, <vscale x 2 x i64> %1, [0 x {}] %2) {
  ret [2 x <{ i8, ptr addrspace(3) }>] %0
}
