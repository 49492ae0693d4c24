; The greatest common divisor by remainders, and its parts picked apart: an instruction of each shape.
define i64 @gcd(i32 %a, i32 %b, i1 %signed) {
entry:
  br label %test
test:
  %x = phi i32 [ %a, %entry ], [ %y, %step ]
  %y = phi i32 [ %b, %entry ], [ %rest, %step ]
  %none = icmp eq i32 %y, 0
  br i1 %none, label %done, label %step
step:
  %rest = urem i32 %x, %y
  br label %test
done:
  %low = trunc i32 %x to i8
  %plain = zext nneg i8 %low to i64
  %wide = sext i32 %x to i64
  %top = ashr i64 %wide, 31
  %sum = sub nsw i64 %plain, %top
  %scaled = shl nuw i64 %sum, 2
  %set = or i64 %scaled, -8
  %chosen = select i1 %signed, i64 %set, i64 %plain
  %kept = freeze i64 %chosen
  ret i64 %kept
}
