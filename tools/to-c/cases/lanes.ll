; Vectors whose lanes become wider or narrower, masks as numbers, and the byte shuffle.

define void @widened(ptr %in, ptr %out) {
start:
  %a = load <32 x i8>, ptr %in, align 1
  %z16 = zext <32 x i8> %a to <32 x i16>
  %s16 = sext <32 x i8> %a to <32 x i16>
  %z32 = zext <32 x i16> %z16 to <32 x i32>
  %s32 = sext <32 x i8> %a to <32 x i32>
  %t16 = trunc <32 x i32> %s32 to <32 x i16>
  %t8 = trunc <32 x i32> %z32 to <32 x i8>
  %p1 = getelementptr i8, ptr %out, i64 64
  %p2 = getelementptr i8, ptr %out, i64 128
  %p3 = getelementptr i8, ptr %out, i64 256
  %p4 = getelementptr i8, ptr %out, i64 384
  %p5 = getelementptr i8, ptr %out, i64 448
  store <32 x i16> %z16, ptr %out, align 1
  store <32 x i16> %s16, ptr %p1, align 1
  store <32 x i32> %z32, ptr %p2, align 1
  store <32 x i32> %s32, ptr %p3, align 1
  store <32 x i16> %t16, ptr %p4, align 1
  store <32 x i8> %t8, ptr %p5, align 1
  %b = load <4 x i16>, ptr %in, align 1
  %b32 = zext <4 x i16> %b to <4 x i32>
  %b64 = zext <4 x i32> %b32 to <4 x i64>
  %b8 = trunc <4 x i64> %b64 to <4 x i8>
  %p6 = getelementptr i8, ptr %out, i64 480
  %p7 = getelementptr i8, ptr %out, i64 512
  %p8 = getelementptr i8, ptr %out, i64 544
  store <4 x i32> %b32, ptr %p6, align 1
  store <4 x i64> %b64, ptr %p7, align 1
  store <4 x i8> %b8, ptr %p8, align 1
  ret void
}

define void @mask_numbers(ptr %in, ptr %out) {
start:
  %a8 = load <16 x i8>, ptr %in, align 1
  %a16 = load <32 x i16>, ptr %in, align 1
  %b16 = load <8 x i16>, ptr %in, align 1
  %a32 = load <8 x i32>, ptr %in, align 1
  %m8 = icmp ugt <16 x i8> %a8, splat (i8 99)
  %m16 = icmp slt <32 x i16> %a16, splat (i16 300)
  %n16 = icmp ne <8 x i16> %b16, zeroinitializer
  %m32 = icmp ult <8 x i32> %a32, splat (i32 2000000000)
  %both = and <8 x i1> %m32, %n16
  %r8 = bitcast <16 x i1> %m8 to i16
  %r16 = bitcast <32 x i1> %m16 to i32
  %r32 = bitcast <8 x i1> %m32 to i8
  store i16 %r8, ptr %out, align 1
  %p1 = getelementptr i8, ptr %out, i64 2
  store i32 %r16, ptr %p1, align 1
  %p2 = getelementptr i8, ptr %out, i64 6
  store i8 %r32, ptr %p2, align 1
  %p3 = getelementptr i8, ptr %out, i64 7
  store <8 x i1> %both, ptr %p3, align 1
  %p4 = getelementptr i8, ptr %out, i64 8
  store <32 x i1> %m16, ptr %p4, align 1
  %p5 = getelementptr i8, ptr %out, i64 12
  store <16 x i1> %m8, ptr %p5, align 1
  %any = call i1 @llvm.vector.reduce.or.v16i1(<16 x i1> %m8)
  %all = call i1 @llvm.vector.reduce.and.v16i1(<16 x i1> %m8)
  %any16 = call i1 @llvm.vector.reduce.or.v32i1(<32 x i1> %m16)
  %all16 = call i1 @llvm.vector.reduce.and.v32i1(<32 x i1> %m16)
  %p6 = getelementptr i8, ptr %out, i64 14
  store i1 %any, ptr %p6, align 1
  %p7 = getelementptr i8, ptr %out, i64 15
  store i1 %all, ptr %p7, align 1
  %p8 = getelementptr i8, ptr %out, i64 16
  store i1 %any16, ptr %p8, align 1
  %p9 = getelementptr i8, ptr %out, i64 17
  store i1 %all16, ptr %p9, align 1
  %third = extractelement <32 x i1> %m16, i64 19
  %p10 = getelementptr i8, ptr %out, i64 18
  store i1 %third, ptr %p10, align 1
  %low = shufflevector <32 x i1> %m16, <32 x i1> poison, <8 x i32> <i32 8, i32 9, i32 10, i32 11, i32 12, i32 13, i32 14, i32 15>
  %wide = sext <8 x i1> %low to <8 x i32>
  %p11 = getelementptr i8, ptr %out, i64 32
  store <8 x i32> %wide, ptr %p11, align 1
  %narrow = sext <8 x i1> %m32 to <8 x i8>
  %p12 = getelementptr i8, ptr %out, i64 64
  store <8 x i8> %narrow, ptr %p12, align 1
  ret void
}

define void @other_lanes(ptr %in, ptr %out) {
start:
  %a = load <16 x i8>, ptr %in, align 1
  %w16 = bitcast <16 x i8> %a to <8 x i16>
  %w32 = bitcast <8 x i16> %w16 to <4 x i32>
  %w64 = bitcast <4 x i32> %w32 to <2 x i64>
  %n = bitcast <2 x i64> %w64 to i128
  %sum16 = add <8 x i16> %w16, splat (i16 257)
  %sum32 = add <4 x i32> %w32, <i32 1, i32 65536, i32 -1, i32 poison>
  %back = bitcast <4 x i32> %w32 to <16 x i8>
  %b = load <4 x i16>, ptr %in, align 1
  %n64 = bitcast <4 x i16> %b to i64
  %p1 = getelementptr i8, ptr %out, i64 16
  %p2 = getelementptr i8, ptr %out, i64 32
  %p3 = getelementptr i8, ptr %out, i64 48
  %p4 = getelementptr i8, ptr %out, i64 64
  store i128 %n, ptr %out, align 1
  store <8 x i16> %sum16, ptr %p1, align 1
  %three = shufflevector <4 x i32> %sum32, <4 x i32> poison, <4 x i32> <i32 2, i32 1, i32 0, i32 0>
  store <4 x i32> %three, ptr %p2, align 1
  store <16 x i8> %back, ptr %p3, align 1
  store i64 %n64, ptr %p4, align 1
  ret void
}

define void @shuffled(ptr %in, ptr %out) {
start:
  %a = load <16 x i8>, ptr %in, align 1
  %at = getelementptr i8, ptr %in, i64 16
  %lanes = load <16 x i8>, ptr %at, align 1
  %r = call <16 x i8> @llvm.x86.ssse3.pshuf.b.128(<16 x i8> %a, <16 x i8> %lanes)
  store <16 x i8> %r, ptr %out, align 1
  %high = or <16 x i8> %lanes, splat (i8 16)
  %s = call <16 x i8> @llvm.x86.ssse3.pshuf.b.128(<16 x i8> %a, <16 x i8> %high)
  %to = getelementptr i8, ptr %out, i64 16
  store <16 x i8> %s, ptr %to, align 1
  %b = load <32 x i8>, ptr %at, align 1
  %part = shufflevector <32 x i8> %b, <32 x i8> poison, <16 x i32> <i32 4, i32 5, i32 6, i32 7, i32 8, i32 9, i32 10, i32 11, i32 12, i32 13, i32 14, i32 15, i32 16, i32 17, i32 18, i32 19>
  %to2 = getelementptr i8, ptr %out, i64 32
  store <16 x i8> %part, ptr %to2, align 1
  %joined = shufflevector <16 x i8> %a, <16 x i8> %part, <32 x i32> <i32 0, i32 16, i32 1, i32 17, i32 2, i32 18, i32 3, i32 19, i32 4, i32 20, i32 5, i32 21, i32 6, i32 22, i32 7, i32 23, i32 8, i32 24, i32 9, i32 25, i32 10, i32 26, i32 11, i32 27, i32 12, i32 28, i32 13, i32 29, i32 14, i32 30, i32 15, i32 31>
  %to3 = getelementptr i8, ptr %out, i64 48
  store <32 x i8> %joined, ptr %to3, align 1
  %c = shufflevector <32 x i8> %b, <32 x i8> %joined, <16 x i32> <i32 0, i32 17, i32 33, i32 50, i32 4, i32 poison, i32 40, i32 60, i32 1, i32 2, i32 3, i32 31, i32 32, i32 63, i32 16, i32 15>
  %known = insertelement <16 x i8> %c, i8 7, i64 5
  %to4 = getelementptr i8, ptr %out, i64 80
  store <16 x i8> %known, ptr %to4, align 1
  ret void
}

declare <16 x i8> @llvm.x86.ssse3.pshuf.b.128(<16 x i8>, <16 x i8>)
declare i1 @llvm.vector.reduce.or.v16i1(<16 x i1>)
declare i1 @llvm.vector.reduce.and.v16i1(<16 x i1>)
declare i1 @llvm.vector.reduce.or.v32i1(<32 x i1>)
declare i1 @llvm.vector.reduce.and.v32i1(<32 x i1>)
