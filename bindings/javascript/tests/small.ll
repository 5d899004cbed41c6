; A stand-in for the IR of the library, for the tests of the build: it has what the script retarget.py changes, the
; arithmetic of 128 bits, a trap and a call without an end.
source_filename = "small"
target datalayout = "e-m:e-p270:32:32-p271:32:32-p272:64:64-i64:64-i128:128-f80:128-n8:16:32:64-S128"
target triple = "x86_64-unknown-linux-gnu"

@"static 0" = private unnamed_addr constant [4 x i8] c"a\22;\00", align 1

define noundef i32 @jschema_new(ptr noundef %handle) #0 {
start:
  call void asm sideeffect "", "~{memory}"()
  store i64 1, ptr %handle, align 8
  ret i32 0
}

; Sixteen times the byte at the handle.
define noundef i32 @jschema_limit(ptr noundef %handle, i64 noundef %applications, i64 noundef %nodes) #0 {
start:
  %byte = load i8, ptr %handle, align 1
  %one = insertelement <16 x i8> poison, i8 %byte, i32 0
  %all = shufflevector <16 x i8> %one, <16 x i8> poison, <16 x i32> zeroinitializer
  store <16 x i8> %all, ptr %handle, align 1
  ret i32 0
}

; A block is made, made larger, and freed: 4 where there is no memory.
define noundef i32 @jschema_add(ptr noundef %handle, ptr noundef %uri, i64 noundef %uri_length, ptr noundef %document, i64 noundef %document_length) #0 {
start:
  %made = call { i64, i64 } @rattle_alloc(i64 %uri_length, i64 8)
  %ok = extractvalue { i64, i64 } %made, 0
  %is_made = icmp eq i64 %ok, 1
  br i1 %is_made, label %grow, label %failed

grow:                                             ; preds = %start
  %address = extractvalue { i64, i64 } %made, 1
  %at = inttoptr i64 %address to ptr
  %grown = call { i64, i64 } @rattle_realloc(ptr %at, i64 %uri_length, i64 %document_length, i64 8)
  %grown_ok = extractvalue { i64, i64 } %grown, 0
  %is_grown = icmp eq i64 %grown_ok, 1
  %grown_address = extractvalue { i64, i64 } %grown, 1
  %grown_at = inttoptr i64 %grown_address to ptr
  br i1 %is_grown, label %done, label %not_grown

done:                                             ; preds = %grow
  call void @rattle_dealloc(ptr %grown_at)
  ret i32 0

not_grown:                                        ; preds = %grow
  call void @rattle_dealloc(ptr %at)
  ret i32 4

failed:                                           ; preds = %start
  ret i32 4
}

; A pointer goes into eight bytes, eight behind the handle, and a number behind it. Both are read in each way: 0 where
; they are what was put there, and the pointer's place is a number too.
define noundef i32 @jschema_upgrade(ptr noundef %handle, ptr noundef %dialect, i64 noundef %dialect_length) #0 {
start:
  %own = alloca ptr, align 8
  store ptr %dialect, ptr %own, align 8
  %kept = load ptr, ptr %own, align 8, !noundef !0
  %at = getelementptr i8, ptr %handle, i64 8
  store ptr %kept, ptr %at, align 8
  %behind = getelementptr i8, ptr %handle, i64 16
  store i64 %dialect_length, ptr %behind, align 8
  %alone = load ptr, ptr %at, align 8
  %marked = load { i8, ptr }, ptr %handle, align 8
  %counted = load { ptr, i64 }, ptr %at, align 8
  %number = load i64, ptr %at, align 8
  %mark = extractvalue { i8, ptr } %marked, 0
  %second = extractvalue { i8, ptr } %marked, 1
  %first = extractvalue { ptr, i64 } %counted, 0
  %count = extractvalue { ptr, i64 } %counted, 1
  %address = ptrtoaddr ptr %dialect to i64
  %right.1 = icmp eq ptr %alone, %dialect
  %right.2 = icmp eq ptr %first, %second
  %right.3 = icmp eq ptr %first, %dialect
  %right.4 = icmp eq i64 %count, %dialect_length
  %right.5 = icmp eq i64 %number, %address
  %right.6 = icmp eq i8 %mark, -1
  %both.1 = and i1 %right.1, %right.2
  %both.2 = and i1 %right.3, %right.4
  %both.3 = and i1 %right.5, %right.6
  %both.4 = and i1 %both.1, %both.2
  %all = and i1 %both.3, %both.4
  %status = select i1 %all, i32 0, i32 2
  ret i32 %status
}

; In a function for speed: bytes are set, then this many are moved by three, and then to where they overlap nothing.
define noundef i32 @jschema_document(ptr noundef %handle, i64 noundef %number) #0 {
start:
  call void @"json::move"(ptr %handle, i64 %number)
  ret i32 0
}

define internal void @"json::move"(ptr noundef %bytes, i64 noundef %number) #1 {
start:
  %behind = getelementptr i8, ptr %bytes, i64 512
  call void @llvm.memset.p0.i64(ptr %behind, i8 7, i64 100, i1 false)
  %by_three = getelementptr i8, ptr %bytes, i64 3
  call void @llvm.memmove.p0.p0.i64(ptr %by_three, ptr %bytes, i64 %number, i1 false)
  %apart = getelementptr i8, ptr %bytes, i64 256
  call void @llvm.memmove.p0.p0.i64(ptr %apart, ptr %by_three, i64 %number, i1 false)
  ret void
}

; Never ends, and takes stack for it.
define noundef i32 @jschema_finish(ptr noundef %handle) #1 {
start:
  %taken = alloca [256 x i8], align 16
  call void @llvm.memset.p0.i64(ptr %taken, i8 1, i64 256, i1 false)
  store ptr %taken, ptr %handle, align 8
  %status = call i32 @jschema_finish(ptr %taken)
  %first = load i8, ptr %taken, align 1
  %more = zext i8 %first to i32
  %sum = add i32 %status, %more
  ret i32 %sum
}

define noundef i32 @jschema_places(ptr noundef %handle) #0 {
start:
  call void @llvm.trap()
  unreachable
}

define noundef i32 @jschema_entry(ptr noundef %handle, ptr noundef %uri, i64 noundef %uri_length, ptr noundef %entry) #0 {
start:
  store i64 %uri_length, ptr %entry, align 8
  ret i32 0
}

; The byte at the other handle goes to the sixth of sixteen, whose fourth goes there.
define noundef i32 @jschema_share(ptr noundef %handle, ptr noundef %other) #0 {
start:
  %before = load <16 x i8>, ptr %handle, align 1
  %byte = load i8, ptr %other, align 1
  %after = insertelement <16 x i8> %before, i8 %byte, i32 5
  store <16 x i8> %after, ptr %handle, align 1
  %fourth = extractelement <16 x i8> %before, i32 3
  store i8 %fourth, ptr %other, align 1
  ret i32 0
}

; Of two numbers of 128 bits at the instance: their product (0), the first shifted by the second to the left (1) or the
; right (2), the quotient (3).
define noundef i32 @jschema_check(ptr noundef %handle, i64 noundef %entry, ptr noundef %instance, i64 noundef %length, i32 noundef %format) #0 {
start:
  %x = load i128, ptr %instance, align 16
  %behind = getelementptr i8, ptr %instance, i64 16
  %y = load i128, ptr %behind, align 16
  switch i32 %format, label %quotient [
    i32 0, label %product
    i32 1, label %left
    i32 2, label %right
  ]

product:                                          ; preds = %start
  %xy = mul i128 %x, %y
  store i128 %xy, ptr %instance, align 16
  ret i32 0

left:                                             ; preds = %start
  %l = shl i128 %x, %y
  store i128 %l, ptr %instance, align 16
  ret i32 0

right:                                            ; preds = %start
  %r = lshr i128 %x, %y
  store i128 %r, ptr %instance, align 16
  ret i32 0

quotient:                                         ; preds = %start
  %q = udiv i128 %x, %y
  store i128 %q, ptr %instance, align 16
  ret i32 0
}

; Sixteen bytes, picked by the sixteen behind them.
define noundef i64 @jschema_text(ptr noundef %handle, ptr noundef %out, i64 noundef %length) #0 {
start:
  %bytes = load <16 x i8>, ptr %out, align 1
  %behind = getelementptr i8, ptr %out, i64 16
  %indices = load <16 x i8>, ptr %behind, align 1
  %picked = call <16 x i8> @llvm.x86.ssse3.pshuf.b.128(<16 x i8> %bytes, <16 x i8> %indices)
  store <16 x i8> %picked, ptr %out, align 1
  ret i64 16
}

define noundef i32 @jschema_refusal(ptr noundef %handle, ptr noundef %kind, ptr noundef %subject, ptr noundef %document, ptr noundef %place, i64 noundef %room, ptr noundef %length) #0 {
start:
  ret i32 2
}

define noundef i32 @jschema_positions(ptr noundef %text, i64 noundef %text_length, ptr noundef %pointers, i64 noundef %pointers_length, ptr noundef %ends, i64 noundef %ends_length, ptr noundef %positions, i64 noundef %positions_length) #0 {
start:
  ret i32 2
}

define noundef i32 @jschema_origins(ptr noundef %handle, ptr noundef %dialect, i64 noundef %dialect_length, ptr noundef %document, i64 noundef %document_length, ptr noundef %pointers, i64 noundef %pointers_length, ptr noundef %ends, i64 noundef %ends_length) #0 {
start:
  ret i32 2
}

define void @jschema_free(ptr noundef %handle) #0 {
start:
  ret void
}

define noundef i32 @jschema_version() #0 {
start:
  ret i32 7
}

declare { i64, i64 } @rattle_alloc(i64 noundef, i64 noundef) #2

declare { i64, i64 } @rattle_realloc(ptr noundef, i64 noundef, i64 noundef, i64 noundef) #2

declare void @rattle_dealloc(ptr noundef) #2

declare void @llvm.memmove.p0.p0.i64(ptr writeonly captures(none), ptr readonly captures(none), i64, i1 immarg) #3

declare void @llvm.memset.p0.i64(ptr writeonly captures(none), i8, i64, i1 immarg) #3

declare void @llvm.trap() #4

declare <16 x i8> @llvm.x86.ssse3.pshuf.b.128(<16 x i8>, <16 x i8>) #5

attributes #0 = { nounwind "probe-stack"="inline-asm" "stack-probe-size"="3072" "target-cpu"="x86-64-v2" }
attributes #1 = { noinline nounwind "target-cpu"="x86-64-v2" }
attributes #2 = { nobuiltin nounwind }
attributes #3 = { nocallback nofree nounwind willreturn memory(argmem: readwrite) }
attributes #4 = { cold noreturn nounwind memory(inaccessiblemem: write) }
attributes #5 = { nocallback nofree nosync nounwind willreturn memory(none) }

!0 = !{}
