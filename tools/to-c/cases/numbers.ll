; for n in 8 16 32 64

; Numbers of one width: sums and the like, shifts, comparisons.

define void @arithmetic_{n}(ptr %in, ptr %out) {
start:
  %a = load i{n}, ptr %in, align 1
  %at = getelementptr inbounds nuw i{n}, ptr %in, i64 1
  %b = load i{n}, ptr %at, align 1
  %s = and i{n} %b, {m}
  %d = or i{n} %b, 1
  %r0 = add i{n} %a, %b
  %o0 = getelementptr i{n}, ptr %out, i64 0
  store i{n} %r0, ptr %o0, align 1
  %r1 = sub i{n} %a, %b
  %o1 = getelementptr i{n}, ptr %out, i64 1
  store i{n} %r1, ptr %o1, align 1
  %r2 = mul i{n} %a, %b
  %o2 = getelementptr i{n}, ptr %out, i64 2
  store i{n} %r2, ptr %o2, align 1
  %r3 = and i{n} %a, %b
  %o3 = getelementptr i{n}, ptr %out, i64 3
  store i{n} %r3, ptr %o3, align 1
  %r4 = or i{n} %a, %b
  %o4 = getelementptr i{n}, ptr %out, i64 4
  store i{n} %r4, ptr %o4, align 1
  %r5 = xor i{n} %a, %b
  %o5 = getelementptr i{n}, ptr %out, i64 5
  store i{n} %r5, ptr %o5, align 1
  %r6 = udiv i{n} %a, %d
  %o6 = getelementptr i{n}, ptr %out, i64 6
  store i{n} %r6, ptr %o6, align 1
  %r7 = urem i{n} %a, %d
  %o7 = getelementptr i{n}, ptr %out, i64 7
  store i{n} %r7, ptr %o7, align 1
  %half = lshr i{n} %a, 1
  %r8 = sdiv i{n} %half, %d
  %o8 = getelementptr i{n}, ptr %out, i64 8
  store i{n} %r8, ptr %o8, align 1
  %r9 = srem i{n} %half, %d
  %o9 = getelementptr i{n}, ptr %out, i64 9
  store i{n} %r9, ptr %o9, align 1
  %r10 = shl i{n} %a, %s
  %o10 = getelementptr i{n}, ptr %out, i64 10
  store i{n} %r10, ptr %o10, align 1
  %r11 = lshr i{n} %a, %s
  %o11 = getelementptr i{n}, ptr %out, i64 11
  store i{n} %r11, ptr %o11, align 1
  %r12 = ashr i{n} %a, %s
  %o12 = getelementptr i{n}, ptr %out, i64 12
  store i{n} %r12, ptr %o12, align 1
  %r13 = sub i{n} 0, %a
  %o13 = getelementptr i{n}, ptr %out, i64 13
  store i{n} %r13, ptr %o13, align 1
  %r14 = shl i{n} 1, %s
  %o14 = getelementptr i{n}, ptr %out, i64 14
  store i{n} %r14, ptr %o14, align 1
  %r15 = add nuw nsw i{n} %half, 1
  %o15 = getelementptr i{n}, ptr %out, i64 15
  store i{n} %r15, ptr %o15, align 1
  %r16 = xor i{n} %a, -1
  %o16 = getelementptr i{n}, ptr %out, i64 16
  store i{n} %r16, ptr %o16, align 1
  %r17 = or disjoint i{n} %half, {top}
  %o17 = getelementptr i{n}, ptr %out, i64 17
  store i{n} %r17, ptr %o17, align 1
  %far = shl i{n} %b, %a
  %near = icmp ult i{n} %a, {n}
  %r18 = select i1 %near, i{n} %far, i{n} 0
  %o18 = getelementptr i{n}, ptr %out, i64 18
  store i{n} %r18, ptr %o18, align 1
  ret void
}

define void @comparison_{n}(ptr %in, ptr %out) {
start:
  %a = load i{n}, ptr %in, align 1
  %at = getelementptr i8, ptr %in, i64 {b}
  %b = load i{n}, ptr %at, align 1
  %ha = lshr i{n} %a, 1
  %hb = lshr i{n} %b, 1
  %r0 = icmp eq i{n} %a, %b
  %z0 = zext i1 %r0 to i8
  %o0 = getelementptr i8, ptr %out, i64 0
  store i8 %z0, ptr %o0, align 1
  %r1 = icmp ne i{n} %a, %b
  %z1 = zext i1 %r1 to i8
  %o1 = getelementptr i8, ptr %out, i64 1
  store i8 %z1, ptr %o1, align 1
  %r2 = icmp ugt i{n} %a, %b
  %z2 = zext i1 %r2 to i8
  %o2 = getelementptr i8, ptr %out, i64 2
  store i8 %z2, ptr %o2, align 1
  %r3 = icmp uge i{n} %a, %b
  %z3 = zext i1 %r3 to i8
  %o3 = getelementptr i8, ptr %out, i64 3
  store i8 %z3, ptr %o3, align 1
  %r4 = icmp ult i{n} %a, %b
  %z4 = zext i1 %r4 to i8
  %o4 = getelementptr i8, ptr %out, i64 4
  store i8 %z4, ptr %o4, align 1
  %r5 = icmp ule i{n} %a, %b
  %z5 = zext i1 %r5 to i8
  %o5 = getelementptr i8, ptr %out, i64 5
  store i8 %z5, ptr %o5, align 1
  %r6 = icmp sgt i{n} %a, %b
  %z6 = zext i1 %r6 to i8
  %o6 = getelementptr i8, ptr %out, i64 6
  store i8 %z6, ptr %o6, align 1
  %r7 = icmp sge i{n} %a, %b
  %z7 = zext i1 %r7 to i8
  %o7 = getelementptr i8, ptr %out, i64 7
  store i8 %z7, ptr %o7, align 1
  %r8 = icmp slt i{n} %a, %b
  %z8 = zext i1 %r8 to i8
  %o8 = getelementptr i8, ptr %out, i64 8
  store i8 %z8, ptr %o8, align 1
  %r9 = icmp sle i{n} %a, %b
  %z9 = zext i1 %r9 to i8
  %o9 = getelementptr i8, ptr %out, i64 9
  store i8 %z9, ptr %o9, align 1
  %r10 = icmp samesign ult i{n} %ha, %hb
  %z10 = zext i1 %r10 to i8
  %o10 = getelementptr i8, ptr %out, i64 10
  store i8 %z10, ptr %o10, align 1
  %r11 = icmp slt i{n} %a, 0
  %z11 = zext i1 %r11 to i8
  %o11 = getelementptr i8, ptr %out, i64 11
  store i8 %z11, ptr %o11, align 1
  %r12 = icmp ugt i{n} %a, 7
  %z12 = zext i1 %r12 to i8
  %o12 = getelementptr i8, ptr %out, i64 12
  store i8 %z12, ptr %o12, align 1
  %bit = and i1 %r0, %r2
  %bit2 = xor i1 %r3, true
  %bit3 = or i1 %bit, %bit2
  %r13 = add i1 %bit3, %r4
  %z13 = zext i1 %r13 to i8
  %o13 = getelementptr i8, ptr %out, i64 13
  store i8 %z13, ptr %o13, align 1
  %r14 = select i1 %r2, i1 %r4, i1 %r6
  %z14 = zext i1 %r14 to i8
  %o14 = getelementptr i8, ptr %out, i64 14
  store i8 %z14, ptr %o14, align 1
  %chosen = select i1 %r2, i{n} %a, i{n} %b
  %frozen = freeze i{n} %chosen
  %p = getelementptr i8, ptr %out, i64 15
  store i{n} %frozen, ptr %p, align 1
  ret void
}

define void @functions_{n}(ptr %in, ptr %out) {
start:
  %a = load i{n}, ptr %in, align 1
  %at = getelementptr i8, ptr %in, i64 {b}
  %b = load i{n}, ptr %at, align 1
  %s = and i{n} %b, 255
  %r0 = call i{n} @llvm.umin.i{n}(i{n} %a, i{n} %b)
  %o0 = getelementptr i{n}, ptr %out, i64 0
  store i{n} %r0, ptr %o0, align 1
  %r1 = call i{n} @llvm.umax.i{n}(i{n} %a, i{n} %b)
  %o1 = getelementptr i{n}, ptr %out, i64 1
  store i{n} %r1, ptr %o1, align 1
  %r2 = call i{n} @llvm.smin.i{n}(i{n} %a, i{n} %b)
  %o2 = getelementptr i{n}, ptr %out, i64 2
  store i{n} %r2, ptr %o2, align 1
  %r3 = call i{n} @llvm.smax.i{n}(i{n} %a, i{n} %b)
  %o3 = getelementptr i{n}, ptr %out, i64 3
  store i{n} %r3, ptr %o3, align 1
  %r4 = call i{n} @llvm.uadd.sat.i{n}(i{n} %a, i{n} %b)
  %o4 = getelementptr i{n}, ptr %out, i64 4
  store i{n} %r4, ptr %o4, align 1
  %r5 = call i{n} @llvm.usub.sat.i{n}(i{n} %a, i{n} %b)
  %o5 = getelementptr i{n}, ptr %out, i64 5
  store i{n} %r5, ptr %o5, align 1
  %r6 = call i{n} @llvm.fshl.i{n}(i{n} %a, i{n} %b, i{n} %s)
  %o6 = getelementptr i{n}, ptr %out, i64 6
  store i{n} %r6, ptr %o6, align 1
  %r7 = call i{n} @llvm.fshr.i{n}(i{n} %a, i{n} %b, i{n} %s)
  %o7 = getelementptr i{n}, ptr %out, i64 7
  store i{n} %r7, ptr %o7, align 1
  %r8 = call i{n} @llvm.ctpop.i{n}(i{n} %a)
  %o8 = getelementptr i{n}, ptr %out, i64 8
  store i{n} %r8, ptr %o8, align 1
  %r9 = call i{n} @llvm.cttz.i{n}(i{n} %a, i1 false)
  %o9 = getelementptr i{n}, ptr %out, i64 9
  store i{n} %r9, ptr %o9, align 1
  %r10 = call i{n} @llvm.ctlz.i{n}(i{n} %a, i1 false)
  %o10 = getelementptr i{n}, ptr %out, i64 10
  store i{n} %r10, ptr %o10, align 1
  %r11 = call i{n} @llvm.abs.i{n}(i{n} %a, i1 false)
  %o11 = getelementptr i{n}, ptr %out, i64 11
  store i{n} %r11, ptr %o11, align 1
  %pairuadd = call { i{n}, i1 } @llvm.uadd.with.overflow.i{n}(i{n} %a, i{n} %b)
  %r12 = extractvalue { i{n}, i1 } %pairuadd, 0
  %o12 = getelementptr i{n}, ptr %out, i64 12
  store i{n} %r12, ptr %o12, align 1
  %overuadd = extractvalue { i{n}, i1 } %pairuadd, 1
  %r13 = select i1 %overuadd, i{n} 1, i{n} 0
  %o13 = getelementptr i{n}, ptr %out, i64 13
  store i{n} %r13, ptr %o13, align 1
  %pairusub = call { i{n}, i1 } @llvm.usub.with.overflow.i{n}(i{n} %a, i{n} %b)
  %r14 = extractvalue { i{n}, i1 } %pairusub, 0
  %o14 = getelementptr i{n}, ptr %out, i64 14
  store i{n} %r14, ptr %o14, align 1
  %overusub = extractvalue { i{n}, i1 } %pairusub, 1
  %r15 = select i1 %overusub, i{n} 1, i{n} 0
  %o15 = getelementptr i{n}, ptr %out, i64 15
  store i{n} %r15, ptr %o15, align 1
  ret void
}

declare i{n} @llvm.umin.i{n}(i{n}, i{n})
declare i{n} @llvm.umax.i{n}(i{n}, i{n})
declare i{n} @llvm.smin.i{n}(i{n}, i{n})
declare i{n} @llvm.smax.i{n}(i{n}, i{n})
declare i{n} @llvm.uadd.sat.i{n}(i{n}, i{n})
declare i{n} @llvm.usub.sat.i{n}(i{n}, i{n})
declare i{n} @llvm.fshl.i{n}(i{n}, i{n}, i{n})
declare i{n} @llvm.fshr.i{n}(i{n}, i{n}, i{n})
declare i{n} @llvm.ctpop.i{n}(i{n})
declare i{n} @llvm.cttz.i{n}(i{n}, i1)
declare i{n} @llvm.ctlz.i{n}(i{n}, i1)
declare i{n} @llvm.abs.i{n}(i{n}, i1)
declare { i{n}, i1 } @llvm.uadd.with.overflow.i{n}(i{n}, i{n})
declare { i{n}, i1 } @llvm.usub.with.overflow.i{n}(i{n}, i{n})
