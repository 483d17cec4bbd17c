; Numbers of different widths, numbers and doubles, 128 bits.

define void @widths(ptr %in, ptr %out) {
start:
  %a = load i64, ptr %in, align 1
  %t32 = trunc i64 %a to i32
  %t16 = trunc i64 %a to i16
  %t8 = trunc i32 %t32 to i8
  %t1 = trunc i64 %a to i1
  %t5 = trunc i64 %a to i5
  %z16 = zext i8 %t8 to i16
  %z64 = zext i16 %t16 to i64
  %z5 = zext i5 %t5 to i32
  %s16 = sext i8 %t8 to i16
  %s64 = sext i32 %t32 to i64
  %s5 = sext i5 %t5 to i32
  %s1 = sext i1 %t1 to i32
  %sum5 = add i5 %t5, 11
  %w5 = zext i5 %sum5 to i8
  %p1 = getelementptr i8, ptr %out, i64 8
  %p2 = getelementptr i8, ptr %out, i64 16
  %p3 = getelementptr i8, ptr %out, i64 24
  %p4 = getelementptr i8, ptr %out, i64 28
  %p5 = getelementptr i8, ptr %out, i64 32
  %p6 = getelementptr i8, ptr %out, i64 36
  %p7 = getelementptr i8, ptr %out, i64 38
  %p8 = getelementptr i8, ptr %out, i64 40
  store i64 %z64, ptr %out, align 8
  store i64 %s64, ptr %p1, align 8
  store i32 %z5, ptr %p2, align 8
  store i32 %s5, ptr %p3, align 4
  store i32 %s1, ptr %p4, align 4
  store i16 %z16, ptr %p5, align 2
  store i16 %s16, ptr %p6, align 2
  store i8 %w5, ptr %p7, align 1
  store i1 %t1, ptr %p8, align 1
  ret void
}

define void @odd_widths(ptr %in, ptr %out) {
start:
  %a = load i24, ptr %in, align 1
  %at = getelementptr i8, ptr %in, i64 3
  %b = load i48, ptr %at, align 1
  %bit_at = getelementptr i8, ptr %in, i64 9
  %octet = load i8, ptr %bit_at, align 1
  %low = and i8 %octet, 1
  store i8 %low, ptr %out, align 1
  %bit = load i1, ptr %out, align 1
  %c = zext i24 %a to i48
  %d = add i48 %b, %c
  %e = select i1 %bit, i48 %d, i48 %b
  %to = getelementptr i8, ptr %out, i64 1
  %to2 = getelementptr i8, ptr %out, i64 7
  %to3 = getelementptr i8, ptr %out, i64 16
  %shifted = lshr i48 %e, 5
  %f = trunc i48 %shifted to i24
  %g = ashr i24 %a, 3
  store i48 %e, ptr %to, align 1
  store i24 %f, ptr %to2, align 1
  store i24 %g, ptr %to3, align 1
  ret void
}

define void @doubles(ptr %in, ptr %out) {
start:
  %a = load i64, ptr %in, align 1
  %at = getelementptr i8, ptr %in, i64 8
  %b32 = load i32, ptr %at, align 1
  %x = uitofp i64 %a to double
  %y = uitofp i32 %b32 to double
  %sum = fadd double %x, %y
  %difference = fsub double %sum, 1.500000e+00
  %product = fmul double %difference, 0x3FE6666666666666
  %quotient = fdiv double %product, 3.000000e+00
  %fenced = call double @llvm.arithmetic.fence.f64(double %quotient)
  %bits = bitcast double %fenced to i64
  store i64 %bits, ptr %out, align 1
  %ratio = fdiv double %x, 7.000000e+00
  %square = fmul double %ratio, %ratio
  %other = fmul double %ratio, %x
  %seventh = fdiv double %other, 7.000000e+00
  %rest = fsub double %square, %seventh
  %p1 = getelementptr i8, ptr %out, i64 8
  store double %rest, ptr %p1, align 1
  %raw = bitcast i64 %a to double
  %p2 = getelementptr i8, ptr %out, i64 16
  store double %raw, ptr %p2, align 1
  %again = load double, ptr %p2, align 1
  %c0 = fcmp oeq double %again, %y
  %c1 = fcmp olt double %again, %y
  %c2 = fcmp ole double %again, %y
  %c3 = fcmp ogt double %again, %y
  %c4 = fcmp oge double %again, %y
  %c5 = fcmp une double %again, %y
  %c6 = fcmp ult double %again, %y
  %c7 = fcmp uge double %again, %y
  %c8 = fcmp ord double %again, %y
  %c9 = fcmp uno double %again, %y
  %c10 = fcmp ule double %again, %y
  %c11 = fcmp ugt double %again, %y
  %n0 = select i1 %c0, i32 1, i32 0
  %n1 = select i1 %c1, i32 2, i32 %n0
  %v2 = select i1 %c2, i32 4, i32 0
  %n2 = or i32 %n1, %v2
  %v3 = select i1 %c3, i32 8, i32 0
  %n3 = or i32 %n2, %v3
  %v4 = select i1 %c4, i32 16, i32 0
  %n4 = or i32 %n3, %v4
  %v5 = select i1 %c5, i32 32, i32 0
  %n5 = or i32 %n4, %v5
  %v6 = select i1 %c6, i32 64, i32 0
  %n6 = or i32 %n5, %v6
  %v7 = select i1 %c7, i32 128, i32 0
  %n7 = or i32 %n6, %v7
  %v8 = select i1 %c8, i32 256, i32 0
  %n8 = or i32 %n7, %v8
  %v9 = select i1 %c9, i32 512, i32 0
  %n9 = or i32 %n8, %v9
  %v10 = select i1 %c10, i32 1024, i32 0
  %n10 = or i32 %n9, %v10
  %v11 = select i1 %c11, i32 2048, i32 0
  %n11 = or i32 %n10, %v11
  %p3 = getelementptr i8, ptr %out, i64 24
  store i32 %n11, ptr %p3, align 1
  ret void
}

define void @wide(ptr %in, ptr %out) {
start:
  %a = load i128, ptr %in, align 1
  %at = getelementptr i8, ptr %in, i64 16
  %b = load i128, ptr %at, align 1
  %shift_octet = load i8, ptr %at, align 1
  %shift_low = and i8 %shift_octet, 127
  %shift = zext i8 %shift_low to i128
  %d = or i128 %b, 1
  %r0 = add i128 %a, %b
  %r1 = sub i128 %a, %b
  %r2 = mul i128 %a, %b
  %r3 = and i128 %a, %b
  %r4 = or i128 %r0, %b
  %r5 = xor i128 %r1, %b
  %r6 = shl i128 %a, %shift
  %r7 = lshr i128 %a, %shift
  %r8 = udiv i128 %a, %d
  %r9 = urem i128 %a, %d
  %r10 = call i128 @llvm.usub.sat.i128(i128 %a, i128 %b)
  %c0 = icmp eq i128 %a, %b
  %c1 = icmp ne i128 %a, 5
  %c2 = icmp ult i128 %a, %b
  %c3 = icmp ule i128 %a, %b
  %c4 = icmp ugt i128 %a, %b
  %c5 = icmp uge i128 %a, 18446744073709551617
  %low = trunc i128 %r2 to i64
  %p1 = getelementptr i8, ptr %out, i64 16
  %p2 = getelementptr i8, ptr %out, i64 32
  %p3 = getelementptr i8, ptr %out, i64 48
  %p4 = getelementptr i8, ptr %out, i64 64
  %p5 = getelementptr i8, ptr %out, i64 80
  %p6 = getelementptr i8, ptr %out, i64 96
  %p7 = getelementptr i8, ptr %out, i64 112
  %p8 = getelementptr i8, ptr %out, i64 128
  %p9 = getelementptr i8, ptr %out, i64 144
  %p10 = getelementptr i8, ptr %out, i64 160
  %p11 = getelementptr i8, ptr %out, i64 176
  %p12 = getelementptr i8, ptr %out, i64 184
  store i128 %r0, ptr %out, align 1
  store i128 %r1, ptr %p1, align 1
  store i128 %r2, ptr %p2, align 1
  store i128 %r3, ptr %p3, align 1
  store i128 %r4, ptr %p4, align 1
  store i128 %r5, ptr %p5, align 1
  store i128 %r6, ptr %p6, align 1
  store i128 %r7, ptr %p7, align 1
  store i128 %r8, ptr %p8, align 1
  store i128 %r9, ptr %p9, align 1
  store i128 %r10, ptr %p10, align 1
  store i64 %low, ptr %p11, align 1
  %n0 = select i1 %c0, i8 1, i8 0
  %n1 = select i1 %c1, i8 2, i8 %n0
  %n2 = select i1 %c2, i8 4, i8 0
  %n3 = select i1 %c3, i8 8, i8 0
  %n4 = select i1 %c4, i8 16, i8 0
  %n5 = select i1 %c5, i8 32, i8 0
  %m0 = or i8 %n1, %n2
  %m1 = or i8 %m0, %n3
  %m2 = or i8 %m1, %n4
  %m3 = or i8 %m2, %n5
  store i8 %m3, ptr %p12, align 1
  ret void
}

define void @swapped(ptr %in, ptr %out) {
start:
  %a = load i64, ptr %in, align 1
  %b = load i32, ptr %in, align 1
  %c = load i16, ptr %in, align 1
  %x = call i64 @llvm.bswap.i64(i64 %a)
  %y = call i32 @llvm.bswap.i32(i32 %b)
  %z = call i16 @llvm.bswap.i16(i16 %c)
  %m64 = call { i64, i1 } @llvm.umul.with.overflow.i64(i64 %a, i64 %x)
  %m32 = call { i32, i1 } @llvm.umul.with.overflow.i32(i32 %b, i32 %y)
  %product = extractvalue { i64, i1 } %m64, 0
  %over = extractvalue { i64, i1 } %m64, 1
  %product32 = extractvalue { i32, i1 } %m32, 0
  %over32 = extractvalue { i32, i1 } %m32, 1
  %both = and i1 %over, %over32
  %p1 = getelementptr i8, ptr %out, i64 8
  %p2 = getelementptr i8, ptr %out, i64 12
  %p3 = getelementptr i8, ptr %out, i64 16
  %p4 = getelementptr i8, ptr %out, i64 24
  %p5 = getelementptr i8, ptr %out, i64 32
  %p6 = getelementptr i8, ptr %out, i64 33
  store i64 %x, ptr %out, align 1
  store i32 %y, ptr %p1, align 1
  store i16 %z, ptr %p2, align 1
  store i64 %product, ptr %p3, align 1
  store i32 %product32, ptr %p4, align 1
  store i1 %both, ptr %p5, align 1
  store i1 %over, ptr %p6, align 1
  ret void
}

declare double @llvm.arithmetic.fence.f64(double)
declare i128 @llvm.usub.sat.i128(i128, i128)
declare i64 @llvm.bswap.i64(i64)
declare i32 @llvm.bswap.i32(i32)
declare i16 @llvm.bswap.i16(i16)
declare { i64, i1 } @llvm.umul.with.overflow.i64(i64, i64)
declare { i32, i1 } @llvm.umul.with.overflow.i32(i32, i32)
