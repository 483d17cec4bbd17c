; Memory: addresses in variables, in memory and in constants, structs, locals, copies.

@text = private unnamed_addr constant [12 x i8] c"\00octets\22\5C\FF..", align 1
@numbers = private unnamed_addr constant [3 x i32] [i32 1, i32 -2, i32 305419896], align 4
@addresses = private unnamed_addr constant [2 x ptr] [ptr @text, ptr getelementptr (i8, ptr @text, i64 3)], align 8
@records = private constant <{ ptr, [8 x i8], ptr, [8 x i8] }> <{ ptr @numbers, [8 x i8] c"\03\00\00\00\00\00\00\00", ptr getelementptr (i8, ptr @records, i64 8), [8 x i8] zeroinitializer }>, align 8
@calls = private unnamed_addr constant [2 x ptr] [ptr @first_of, ptr @last_of], align 8
@counter = private global [8 x i8] zeroinitializer, align 8

; Eight octets of data are moved as an address: none of them is lost, whatever a pointer has.
define void @data_as_address(ptr %in, ptr %out) {
start:
  %data = load ptr, ptr %in, align 1
  %at = getelementptr i8, ptr %in, i64 8
  %other = load ptr, ptr %at, align 1
  %octet_at = getelementptr i8, ptr %in, i64 16
  %octet = load i8, ptr %octet_at, align 1
  %is = icmp ugt i8 %octet, 127
  %chosen = select i1 %is, ptr %data, ptr %other
  store ptr %chosen, ptr %out, align 1
  %to = getelementptr i8, ptr %out, i64 8
  %number = ptrtoint ptr %data to i64
  %sum = add i64 %number, 1
  %back = inttoptr i64 %sum to ptr
  store ptr %back, ptr %to, align 1
  %to2 = getelementptr i8, ptr %out, i64 16
  %plain = ptrtoaddr ptr %other to i64
  store i64 %plain, ptr %to2, align 1
  %to3 = getelementptr i8, ptr %out, i64 24
  %order = icmp ult ptr %data, %other
  store i1 %order, ptr %to3, align 1
  ret void
}

; An address stands in memory as a number does: a number that is written is read as an address, and the other way round.
define void @address_as_number(ptr %in, ptr %out) {
start:
  %kept = alloca [8 x i8], align 8
  %where = alloca [16 x i8], align 8
  %data = load i64, ptr %in, align 1
  store i64 %data, ptr %kept, align 8
  %number = ptrtoint ptr %kept to i64
  store i64 %number, ptr %where, align 8
  %found = load ptr, ptr %where, align 8
  %again = load i64, ptr %found, align 8
  store i64 %again, ptr %out, align 1
  %where2 = getelementptr inbounds nuw i8, ptr %where, i64 8
  %next = getelementptr i8, ptr %kept, i64 1
  store ptr %next, ptr %where2, align 8
  %as_number = load i64, ptr %where2, align 8
  %difference = sub i64 %as_number, %number
  %to = getelementptr i8, ptr %out, i64 8
  store i64 %difference, ptr %to, align 1
  ret void
}

; So do addresses in constants.
define void @address_in_constant(ptr %in, ptr %out) {
start:
  %octet = load i8, ptr %in, align 1
  %low = and i8 %octet, 1
  %index = zext i8 %low to i64
  %at = getelementptr inbounds nuw ptr, ptr @addresses, i64 %index
  %text = load ptr, ptr %at, align 8
  %letter = load i8, ptr %text, align 1
  store i8 %letter, ptr %out, align 1
  %number = load i64, ptr %at, align 8
  %back = inttoptr i64 %number to ptr
  %later = getelementptr i8, ptr %back, i64 4
  %letter2 = load i8, ptr %later, align 1
  %to = getelementptr i8, ptr %out, i64 1
  store i8 %letter2, ptr %to, align 1
  %self = load ptr, ptr getelementptr inbounds nuw (i8, ptr @records, i64 16), align 8
  %three = load i64, ptr %self, align 8
  %to2 = getelementptr i8, ptr %out, i64 8
  store i64 %three, ptr %to2, align 1
  %table = load ptr, ptr @records, align 8
  %item = getelementptr inbounds nuw i32, ptr %table, i64 2
  %value = load i32, ptr %item, align 4
  %to3 = getelementptr i8, ptr %out, i64 16
  store i32 %value, ptr %to3, align 1
  %call_at = getelementptr inbounds nuw ptr, ptr @calls, i64 %index
  %call = load ptr, ptr %call_at, align 8
  %answer = call i8 %call(ptr %in, i64 9)
  %to4 = getelementptr i8, ptr %out, i64 20
  store i8 %answer, ptr %to4, align 1
  ret void
}

define internal i8 @first_of(ptr %at, i64 %length) {
start:
  %octet = load i8, ptr %at, align 1
  ret i8 %octet
}

define internal i8 @last_of(ptr %at, i64 %length) {
start:
  %place = sub i64 %length, 1
  %last = getelementptr i8, ptr %at, i64 %place
  %octet = load i8, ptr %last, align 1
  ret i8 %octet
}

; A struct whose other field is poison keeps the field that it has.
define void @fields(ptr %in, ptr %out) {
start:
  %a = load i64, ptr %in, align 1
  %b = trunc i64 %a to i8
  %one = insertvalue { i8, i64 } { i8 1, i64 poison }, i64 %a, 1
  %two = insertvalue { i8, i64 } poison, i8 %b, 0
  %three = insertvalue { i8, i64 } %two, i64 %a, 1
  %four = call { i8, i64 } @pair_of(i64 %a)
  %bit = trunc i64 %a to i1
  %chosen = select i1 %bit, { i8, i64 } %one, { i8, i64 } %three
  %five = call i64 @sum_of({ i8, i64 } %chosen)
  %f0 = extractvalue { i8, i64 } %one, 0
  %f1 = extractvalue { i8, i64 } %one, 1
  %f2 = extractvalue { i8, i64 } %chosen, 0
  %f3 = extractvalue { i8, i64 } %four, 0
  %f4 = extractvalue { i8, i64 } %four, 1
  %p1 = getelementptr i8, ptr %out, i64 8
  %p2 = getelementptr i8, ptr %out, i64 16
  %p3 = getelementptr i8, ptr %out, i64 24
  %p4 = getelementptr i8, ptr %out, i64 25
  %p5 = getelementptr i8, ptr %out, i64 26
  store i64 %f1, ptr %out, align 1
  store i64 %f4, ptr %p1, align 1
  store i64 %five, ptr %p2, align 1
  store i8 %f0, ptr %p3, align 1
  store i8 %f2, ptr %p4, align 1
  store i8 %f3, ptr %p5, align 1
  ret void
}

define internal { i8, i64 } @pair_of(i64 %a) {
start:
  %is = icmp ugt i64 %a, 1000
  br i1 %is, label %large, label %small

large:
  ret { i8, i64 } { i8 7, i64 9 }

small:
  %made = insertvalue { i8, i64 } { i8 3, i64 undef }, i64 %a, 1
  ret { i8, i64 } %made
}

define internal i64 @sum_of({ i8, i64 } %it) {
start:
  %a = extractvalue { i8, i64 } %it, 0
  %b = extractvalue { i8, i64 } %it, 1
  %w = zext i8 %a to i64
  %s = add i64 %w, %b
  ret i64 %s
}

define void @copies(ptr %in, ptr %out) {
start:
  %room = alloca [40 x i8], align 16
  call void @llvm.lifetime.start.p0(ptr %room)
  call void @llvm.memset.p0.i64(ptr align 16 %room, i8 17, i64 40, i1 false)
  call void @llvm.memcpy.p0.p0.i64(ptr align 16 %room, ptr align 1 %in, i64 20, i1 false)
  %two = getelementptr inbounds nuw i8, ptr %room, i64 2
  call void @llvm.memmove.p0.p0.i64(ptr %two, ptr %room, i64 30, i1 false)
  call void @llvm.memcpy.p0.p0.i64(ptr %out, ptr %room, i64 40, i1 false)
  call void @llvm.lifetime.end.p0(ptr %room)
  %index = load i8, ptr %in, align 1
  %wide = sext i8 %index to i64
  %middle = getelementptr i8, ptr %out, i64 200
  %at = getelementptr i8, ptr %middle, i64 %wide
  store i8 77, ptr %at, align 1
  %small = and i8 %index, 3
  %three = getelementptr i16, ptr %middle, i8 %small
  %before = getelementptr i32, ptr %middle, i64 -40
  store i16 4660, ptr %three, align 1
  store i32 -559038737, ptr %before, align 1
  ret void
}

define void @shared(ptr %in, ptr %out) {
start:
  %a = load i64, ptr %in, align 1
  %room = alloca [8 x i8], align 8
  store atomic i64 %a, ptr %room seq_cst, align 8
  call void asm sideeffect "", "~{memory}"()
  %r0 = atomicrmw add ptr %room, i64 5 seq_cst, align 8
  %r1 = atomicrmw xchg ptr %room, i64 %r0 seq_cst, align 8
  %r2 = atomicrmw sub ptr %room, i64 3 seq_cst, align 8
  %r3 = load atomic i64, ptr %room seq_cst, align 8
  fence seq_cst
  %low = and i64 %a, 1
  %expected = add i64 %r3, %low
  %done = cmpxchg ptr %room, i64 %expected, i64 99 seq_cst seq_cst, align 8
  %found = extractvalue { i64, i1 } %done, 0
  %is = extractvalue { i64, i1 } %done, 1
  %last = load volatile i64, ptr %room, align 8
  %counted = atomicrmw add ptr @counter, i64 %last seq_cst, align 8
  %p1 = getelementptr i8, ptr %out, i64 8
  %p2 = getelementptr i8, ptr %out, i64 16
  %p3 = getelementptr i8, ptr %out, i64 24
  %p4 = getelementptr i8, ptr %out, i64 32
  %p5 = getelementptr i8, ptr %out, i64 40
  %p6 = getelementptr i8, ptr %out, i64 48
  store i64 %r0, ptr %out, align 1
  store i64 %r1, ptr %p1, align 1
  store i64 %r2, ptr %p2, align 1
  store i64 %r3, ptr %p3, align 1
  store i64 %found, ptr %p4, align 1
  store i64 %counted, ptr %p5, align 1
  store i1 %is, ptr %p6, align 1
  ret void
}

declare void @llvm.lifetime.start.p0(ptr)
declare void @llvm.lifetime.end.p0(ptr)
declare void @llvm.memset.p0.i64(ptr, i8, i64, i1)
declare void @llvm.memcpy.p0.p0.i64(ptr, ptr, i64, i1)
declare void @llvm.memmove.p0.p0.i64(ptr, ptr, i64, i1)
