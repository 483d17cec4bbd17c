; Jumps, and what is copied at each for the phis of its target.

define void @loops(ptr %in, ptr %out) {
start:
  %count8 = load i8, ptr %in, align 1
  %count = zext i8 %count8 to i64
  br label %body

body:
  %i = phi i64 [ 0, %start ], [ %next, %later ]
  %a = phi i64 [ 1, %start ], [ %b, %later ]
  %b = phi i64 [ 2, %start ], [ %a, %later ]
  %c = phi i64 [ 3, %start ], [ %sum, %later ]
  %sum = add i64 %c, %a
  %is = icmp ult i64 %i, %count
  br i1 %is, label %later, label %done

later:
  %next = add i64 %i, 1
  br label %body

done:
  %p1 = getelementptr i8, ptr %out, i64 8
  %p2 = getelementptr i8, ptr %out, i64 16
  store i64 %a, ptr %out, align 1
  store i64 %b, ptr %p1, align 1
  store i64 %c, ptr %p2, align 1
  ret void
}

define void @cases(ptr %in, ptr %out) {
start:
  %octet = load i8, ptr %in, align 1
  %low = and i8 %octet, 7
  switch i8 %low, label %other [
    i8 0, label %zero
    i8 1, label %one
    i8 5, label %zero
    i8 -1, label %never
  ]

never:
  unreachable

zero:
  %z = phi i32 [ 10, %start ], [ 10, %start ]
  br label %done

one:
  br label %done

other:
  %is = icmp eq i8 %octet, 255
  br i1 %is, label %stop, label %done

stop:
  %flag = load i8, ptr %out, align 1
  %set = icmp ne i8 %flag, 0
  br i1 %set, label %trapped, label %done

trapped:
  call void @llvm.trap()
  unreachable

done:
  %answer = phi i32 [ 1, %zero ], [ 2, %one ], [ poison, %other ], [ 4, %stop ]
  %defined = phi i1 [ true, %zero ], [ true, %one ], [ false, %other ], [ true, %stop ]
  %shown = select i1 %defined, i32 %answer, i32 9
  store i32 %shown, ptr %out, align 1
  ret void
}

define void @vectors_in_turn(ptr %in, ptr %out) {
start:
  %a = load <16 x i8>, ptr %in, align 1
  %at = getelementptr i8, ptr %in, i64 16
  %b = load <16 x i8>, ptr %at, align 1
  %wide = zext <16 x i8> %b to <16 x i16>
  br label %body

body:
  %i = phi i32 [ 0, %start ], [ %next, %body ]
  %x = phi <16 x i8> [ %a, %start ], [ %y, %body ]
  %y = phi <16 x i8> [ %b, %start ], [ %x, %body ]
  %m = phi <16 x i1> [ zeroinitializer, %start ], [ %less, %body ]
  %k = phi <16 x i1> [ splat (i1 true), %start ], [ %m, %body ]
  %less = icmp ult <16 x i16> %wide, splat (i16 100)
  %next = add i32 %i, 1
  %is = icmp eq i32 %next, 3
  br i1 %is, label %done, label %body

done:
  %chosen = select <16 x i1> %m, <16 x i8> %x, <16 x i8> %y
  %bits = sext <16 x i1> %k to <16 x i8>
  store <16 x i8> %chosen, ptr %out, align 1
  %to = getelementptr i8, ptr %out, i64 16
  store <16 x i8> %bits, ptr %to, align 1
  ret void
}

declare void @llvm.trap()
