; for n c in 8 16 8 32 16 8 16 32 16 4 32 4 32 8 32 32 64 2

; Vectors of c lanes of one width.

define void @vector_arithmetic_{n}_{c}(ptr %in, ptr %out) {
start:
  %a = load <{c} x i{n}>, ptr %in, align 1
  %at = getelementptr i8, ptr %in, i64 {o}
  %b = load <{c} x i{n}>, ptr %at, align 1
  %r0 = add <{c} x i{n}> %a, %b
  %o0 = getelementptr <{c} x i{n}>, ptr %out, i64 0
  store <{c} x i{n}> %r0, ptr %o0, align 1
  %r1 = sub <{c} x i{n}> %a, %b
  %o1 = getelementptr <{c} x i{n}>, ptr %out, i64 1
  store <{c} x i{n}> %r1, ptr %o1, align 1
  %r2 = mul <{c} x i{n}> %a, %b
  %o2 = getelementptr <{c} x i{n}>, ptr %out, i64 2
  store <{c} x i{n}> %r2, ptr %o2, align 1
  %r3 = and <{c} x i{n}> %a, %b
  %o3 = getelementptr <{c} x i{n}>, ptr %out, i64 3
  store <{c} x i{n}> %r3, ptr %o3, align 1
  %r4 = or <{c} x i{n}> %a, %b
  %o4 = getelementptr <{c} x i{n}>, ptr %out, i64 4
  store <{c} x i{n}> %r4, ptr %o4, align 1
  %r5 = xor <{c} x i{n}> %a, %b
  %o5 = getelementptr <{c} x i{n}>, ptr %out, i64 5
  store <{c} x i{n}> %r5, ptr %o5, align 1
  %r6 = shl <{c} x i{n}> %a, splat (i{n} 3)
  %o6 = getelementptr <{c} x i{n}>, ptr %out, i64 6
  store <{c} x i{n}> %r6, ptr %o6, align 1
  %r7 = lshr <{c} x i{n}> %a, splat (i{n} 3)
  %o7 = getelementptr <{c} x i{n}>, ptr %out, i64 7
  store <{c} x i{n}> %r7, ptr %o7, align 1
  %r8 = ashr <{c} x i{n}> %a, splat (i{n} 3)
  %o8 = getelementptr <{c} x i{n}>, ptr %out, i64 8
  store <{c} x i{n}> %r8, ptr %o8, align 1
  %s = and <{c} x i{n}> %b, splat (i{n} {m})
  %r9 = shl <{c} x i{n}> %a, %s
  %o9 = getelementptr <{c} x i{n}>, ptr %out, i64 9
  store <{c} x i{n}> %r9, ptr %o9, align 1
  %r10 = lshr <{c} x i{n}> %a, %s
  %o10 = getelementptr <{c} x i{n}>, ptr %out, i64 10
  store <{c} x i{n}> %r10, ptr %o10, align 1
  %r11 = call <{c} x i{n}> @llvm.umin.v{c}i{n}(<{c} x i{n}> %a, <{c} x i{n}> %b)
  %o11 = getelementptr <{c} x i{n}>, ptr %out, i64 11
  store <{c} x i{n}> %r11, ptr %o11, align 1
  %r12 = call <{c} x i{n}> @llvm.umax.v{c}i{n}(<{c} x i{n}> %a, <{c} x i{n}> %b)
  %o12 = getelementptr <{c} x i{n}>, ptr %out, i64 12
  store <{c} x i{n}> %r12, ptr %o12, align 1
  %r13 = freeze <{c} x i{n}> %b
  %o13 = getelementptr <{c} x i{n}>, ptr %out, i64 13
  store <{c} x i{n}> %r13, ptr %o13, align 1
  %r14 = sub <{c} x i{n}> zeroinitializer, %a
  %o14 = getelementptr <{c} x i{n}>, ptr %out, i64 14
  store <{c} x i{n}> %r14, ptr %o14, align 1
  ret void
}

define void @vector_choice_{n}_{c}(ptr %in, ptr %out) {
start:
  %a = load <{c} x i{n}>, ptr %in, align 1
  %at = getelementptr i8, ptr %in, i64 {o}
  %b = load <{c} x i{n}>, ptr %at, align 1
  %m0 = icmp eq <{c} x i{n}> %a, %b
  %r0 = select <{c} x i1> %m0, <{c} x i{n}> %a, <{c} x i{n}> splat (i{n} 5)
  %o0 = getelementptr <{c} x i{n}>, ptr %out, i64 0
  store <{c} x i{n}> %r0, ptr %o0, align 1
  %m1 = icmp ne <{c} x i{n}> %a, %b
  %r1 = select <{c} x i1> %m1, <{c} x i{n}> %a, <{c} x i{n}> splat (i{n} 5)
  %o1 = getelementptr <{c} x i{n}>, ptr %out, i64 1
  store <{c} x i{n}> %r1, ptr %o1, align 1
  %m2 = icmp ugt <{c} x i{n}> %a, %b
  %r2 = select <{c} x i1> %m2, <{c} x i{n}> %a, <{c} x i{n}> splat (i{n} 5)
  %o2 = getelementptr <{c} x i{n}>, ptr %out, i64 2
  store <{c} x i{n}> %r2, ptr %o2, align 1
  %m3 = icmp uge <{c} x i{n}> %a, %b
  %r3 = select <{c} x i1> %m3, <{c} x i{n}> %a, <{c} x i{n}> splat (i{n} 5)
  %o3 = getelementptr <{c} x i{n}>, ptr %out, i64 3
  store <{c} x i{n}> %r3, ptr %o3, align 1
  %m4 = icmp ult <{c} x i{n}> %a, %b
  %r4 = select <{c} x i1> %m4, <{c} x i{n}> %a, <{c} x i{n}> splat (i{n} 5)
  %o4 = getelementptr <{c} x i{n}>, ptr %out, i64 4
  store <{c} x i{n}> %r4, ptr %o4, align 1
  %m5 = icmp ule <{c} x i{n}> %a, %b
  %r5 = select <{c} x i1> %m5, <{c} x i{n}> %a, <{c} x i{n}> splat (i{n} 5)
  %o5 = getelementptr <{c} x i{n}>, ptr %out, i64 5
  store <{c} x i{n}> %r5, ptr %o5, align 1
  %m6 = icmp sgt <{c} x i{n}> %a, %b
  %r6 = select <{c} x i1> %m6, <{c} x i{n}> %a, <{c} x i{n}> splat (i{n} 5)
  %o6 = getelementptr <{c} x i{n}>, ptr %out, i64 6
  store <{c} x i{n}> %r6, ptr %o6, align 1
  %m7 = icmp sge <{c} x i{n}> %a, %b
  %r7 = select <{c} x i1> %m7, <{c} x i{n}> %a, <{c} x i{n}> splat (i{n} 5)
  %o7 = getelementptr <{c} x i{n}>, ptr %out, i64 7
  store <{c} x i{n}> %r7, ptr %o7, align 1
  %m8 = icmp slt <{c} x i{n}> %a, %b
  %r8 = select <{c} x i1> %m8, <{c} x i{n}> %a, <{c} x i{n}> splat (i{n} 5)
  %o8 = getelementptr <{c} x i{n}>, ptr %out, i64 8
  store <{c} x i{n}> %r8, ptr %o8, align 1
  %m9 = icmp sle <{c} x i{n}> %a, %b
  %r9 = select <{c} x i1> %m9, <{c} x i{n}> %a, <{c} x i{n}> splat (i{n} 5)
  %o9 = getelementptr <{c} x i{n}>, ptr %out, i64 9
  store <{c} x i{n}> %r9, ptr %o9, align 1
  %r10 = sext <{c} x i1> %m2 to <{c} x i{n}>
  %o10 = getelementptr <{c} x i{n}>, ptr %out, i64 10
  store <{c} x i{n}> %r10, ptr %o10, align 1
  %r11 = zext <{c} x i1> %m8 to <{c} x i{n}>
  %o11 = getelementptr <{c} x i{n}>, ptr %out, i64 11
  store <{c} x i{n}> %r11, ptr %o11, align 1
  %and = and <{c} x i1> %m2, %m6
  %or = or <{c} x i1> %and, %m0
  %not = xor <{c} x i1> %or, splat (i1 true)
  %kept = freeze <{c} x i1> %not
  %r12 = sext <{c} x i1> %kept to <{c} x i{n}>
  %o12 = getelementptr <{c} x i{n}>, ptr %out, i64 12
  store <{c} x i{n}> %r12, ptr %o12, align 1
  %chosen = select <{c} x i1> %m2, <{c} x i1> %m6, <{c} x i1> %m4
  %r13 = sext <{c} x i1> %chosen to <{c} x i{n}>
  %o13 = getelementptr <{c} x i{n}>, ptr %out, i64 13
  store <{c} x i{n}> %r13, ptr %o13, align 1
  %one = extractelement <{c} x i{n}> %a, i64 1
  %is = icmp ugt i{n} %one, 9
  %r14 = select i1 %is, <{c} x i{n}> %a, <{c} x i{n}> %b
  %o14 = getelementptr <{c} x i{n}>, ptr %out, i64 14
  store <{c} x i{n}> %r14, ptr %o14, align 1
  ret void
}

define void @vector_lanes_{n}_{c}(ptr %in, ptr %out) {
start:
  %a = load <{c} x i{n}>, ptr %in, align 1
  %at = getelementptr i8, ptr %in, i64 {o}
  %b = load <{c} x i{n}>, ptr %at, align 1
  %low = load i8, ptr %in, align 1
  %place8 = and i8 %low, {l}
  %place = zext i8 %place8 to i64
  %first = extractelement <{c} x i{n}> %a, i64 0
  %last = extractelement <{c} x i{n}> %b, i64 {l}
  %any = extractelement <{c} x i{n}> %a, i64 %place
  %r0 = insertelement <{c} x i{n}> %a, i{n} %last, i64 0
  %o0 = getelementptr <{c} x i{n}>, ptr %out, i64 0
  store <{c} x i{n}> %r0, ptr %o0, align 1
  %r1 = insertelement <{c} x i{n}> %b, i{n} %any, i64 {l}
  %o1 = getelementptr <{c} x i{n}>, ptr %out, i64 1
  store <{c} x i{n}> %r1, ptr %o1, align 1
  %r2 = insertelement <{c} x i{n}> zeroinitializer, i{n} %first, i64 1
  %o2 = getelementptr <{c} x i{n}>, ptr %out, i64 2
  store <{c} x i{n}> %r2, ptr %o2, align 1
  %r3 = shufflevector <{c} x i{n}> %a, <{c} x i{n}> poison, <{c} x i32> zeroinitializer
  %o3 = getelementptr <{c} x i{n}>, ptr %out, i64 3
  store <{c} x i{n}> %r3, ptr %o3, align 1
  %mixed = shufflevector <{c} x i{n}> %a, <{c} x i{n}> %b, <{c} x i32> <{mixed}>
  %r4 = select <{c} x i1> <{known}>, <{c} x i{n}> %mixed, <{c} x i{n}> zeroinitializer
  %o4 = getelementptr <{c} x i{n}>, ptr %out, i64 4
  store <{c} x i{n}> %r4, ptr %o4, align 1
  %r5 = shufflevector <{c} x i{n}> %a, <{c} x i{n}> poison, <{c} x i32> <{back}>
  %o5 = getelementptr <{c} x i{n}>, ptr %out, i64 5
  store <{c} x i{n}> %r5, ptr %o5, align 1
  ret void
}

declare <{c} x i{n}> @llvm.umin.v{c}i{n}(<{c} x i{n}>, <{c} x i{n}>)
declare <{c} x i{n}> @llvm.umax.v{c}i{n}(<{c} x i{n}>, <{c} x i{n}>)
