; values of all types: one of two pointers, a floating-point number that is chosen, an integer of many bits
define ptr addrspace(3) @pick(i1 %c, ptr addrspace(3) %p, ptr addrspace(3) %q) {
entry:
  br i1 %c, label %other, label %done
other:
  br label %done
done:
  %r = phi ptr addrspace(3) [ %p, %entry ], [ %q, %other ]
  ret ptr addrspace(3) %r
}

define double @choose(i1 %c, double %x, double %y, ptr, half, bfloat, float) {
  %z = select i1 %c, double %x, double %y
  %kept = freeze double %z
  ret double %kept
}

define i200 @square(i100 %a) {
  %wide = sext i100 %a to i200
  %square = mul nsw i200 %wide, %wide
  ret i200 %square
}
