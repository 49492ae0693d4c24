; Constants of all kinds, in several spellings.
source_filename = "constants"

%pair = type { i16, [2 x ptr] }
%tight = type <{ i8, %pair }>

define [6 x i8] @text() {
  ret [6 x i8] c"a\22\\\0A\FF\00"
}

define %tight @nested(i1 %known) {
  %one = select i1 %known, %tight <{ i8 1, %pair { i16 -2, [2 x ptr] [ptr null, ptr undef] } }>, %tight undef
  ret %tight %one
}

define <4 x i8> @lanes(i1 %known, <4 x i8> %given) {
  br i1 %known, label %same, label %other

same:
  br label %other

other:
  %all = phi <4 x i8> [ splat (i8 7), %0 ], [ <i8 7, i8 7, i8 7, i8 7>, %same ]
  %some = select i1 %known, <4 x i8> %all, <4 x i8> <i8 0, i8 poison, i8 -1, i8 127>
  ret <4 x i8> %some
}

define { [2 x <2 x ptr>], float } @mixed() {
  ret { [2 x <2 x ptr>], float } { [2 x <2 x ptr>] [<2 x ptr> <ptr null, ptr poison>, <2 x ptr> zeroinitializer], float undef }
}

define [2 x i16] @zeros() {
  ret [2 x i16] [i16 0, i16 0]
}
