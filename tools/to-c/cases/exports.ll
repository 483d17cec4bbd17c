; Calls of a header, which C's own structs are passed to.

define i32 @options_sum(ptr %config, i64 %config_length, ptr %sum) {
start:
  br label %head

head:
  %i = phi i64 [ 0, %start ], [ %next, %body ]
  %s = phi i64 [ 0, %start ], [ %t, %body ]
  %is = icmp ult i64 %i, %config_length
  br i1 %is, label %body, label %done

body:
  %at = getelementptr i64, ptr %config, i64 %i
  %x = load i64, ptr %at, align 8
  %y = mul i64 %x, 3
  %t = add i64 %s, %y
  %next = add i64 %i, 1
  br label %head

done:
  store i64 %s, ptr %sum, align 8
  ret i32 -5
}

define void @options_filled(ptr %config, i64 %config_length) {
start:
  store i64 81985529216486895, ptr %config, align 8
  %at = getelementptr i8, ptr %config, i64 16
  store i64 3, ptr %at, align 8
  ret void
}

define void @handle_opened(ptr %handle, ptr %room, i64 %room_length) {
start:
  store i64 1, ptr %handle, align 8
  %at = getelementptr i8, ptr %handle, i64 8
  %last = getelementptr i8, ptr %room, i64 %room_length
  store ptr %last, ptr %at, align 8
  ret void
}

define i8 @handle_read(ptr %handle) {
start:
  %at = getelementptr i8, ptr %handle, i64 8
  %end = load ptr, ptr %at, align 8
  %last = getelementptr i8, ptr %end, i64 -1
  %octet = load i8, ptr %last, align 1
  %count = load i64, ptr %handle, align 8
  %more = add i64 %count, 1
  store i64 %more, ptr %handle, align 8
  ret i8 %octet
}

define void @odd_turned(ptr %it) {
start:
  %number = load i32, ptr %it, align 4
  %after_at = getelementptr i8, ptr %it, i64 8
  %after = load i64, ptr %after_at, align 8
  %last_at = getelementptr i8, ptr %it, i64 16
  %wide = zext i32 %number to i64
  %narrow = trunc i64 %after to i32
  %low = trunc i64 %after to i8
  store i32 %narrow, ptr %it, align 4
  store i64 %wide, ptr %after_at, align 8
  store i8 %low, ptr %last_at, align 1
  ret void
}

define i64 @plains_turned(ptr %plains, i64 %plains_length) {
start:
  br label %head

head:
  %i = phi i64 [ 0, %start ], [ %next, %body ]
  %is = icmp ult i64 %i, %plains_length
  br i1 %is, label %body, label %done

body:
  %offset = mul i64 %i, 24
  %it = getelementptr i8, ptr %plains, i64 %offset
  %place = load i64, ptr %it, align 8
  %more = add i64 %place, %i
  store i64 %more, ptr %it, align 8
  %one_at = getelementptr i8, ptr %it, i64 8
  %two_at = getelementptr i8, ptr %it, i64 12
  %one = load i32, ptr %one_at, align 4
  store i32 %one, ptr %two_at, align 4
  %octet_at = getelementptr i8, ptr %it, i64 19
  store i8 7, ptr %octet_at, align 1
  %next = add i64 %i, 1
  br label %head

done:
  ret i64 -2
}

define i32 @version() {
start:
  ret i32 66051
}
