; A program as the toolchain lowers it for x86-64, whose functions wait for a word and wake who waits.
target datalayout = "e-m:e-p270:32:32-p271:32:32-p272:64:64-i64:64-i128:128-f80:128-n8:16:32:64-S128"
target triple = "x86_64-unknown-linux-gnu"

define i64 @papr_wait(ptr noundef %a0, i64 noundef %a1) #5 {
start:
  %r0 = alloca [16 x i8], align 8
  %r1 = getelementptr i8, ptr %r0, i64 8
  store i64 60, ptr %r0, align 8
  store i64 0, ptr %r1, align 8
  %r2 = call i64 @"+threads::syscall"(i64 202, ptr %a0, i64 128, i64 %a1, ptr %r0)
  ret i64 %r2
}

define i64 @papr_wake(ptr noundef %a0) #5 {
start:
  %r0 = call i64 @"+threads::wake"(i64 202, ptr %a0, i64 129, i64 1, ptr null)
  ret i64 %r0
}

define internal noundef i64 @"+threads::syscall"(i64 noundef %a0, ptr noundef %a1, i64 noundef %a2, i64 noundef %a3, ptr noundef %a4) #5 {
start:
  %r0 = call i64 (i64, ptr, i64, i64, ptr, ...) @syscall(i64 %a0, ptr %a1, i64 %a2, i64 %a3, ptr %a4)
  ret i64 %r0
}

define internal noundef i64 @"+threads::wake"(i64 noundef %a0, ptr noundef %a1, i64 noundef %a2, i64 noundef %a3, ptr noundef %a4) #5 {
start:
  %r0 = call i64 (i64, ptr, i64, i64, ptr, ...) @syscall(i64 %a0, ptr %a1, i64 %a2, i64 %a3, ptr %a4)
  ret i64 %r0
}

define internal noundef i32 @"+threads::entry"() #5 {
start:
  ret i32 0
}

define i32 @main() #5 {
start:
  %r0 = call i64 @__sysv_signal(i32 13, i64 1)
  %r1 = call ptr @__x86_get_cpuid_feature_leaf(i32 0)
  %r2 = getelementptr inbounds nuw i8, ptr %r1, i64 24
  %r3 = load i32, ptr %r2, align 4, !noundef !1
  %r4 = zext i32 %r3 to i64
  %r5 = xor i64 %r4, 3
  %r6 = and i64 %r5, 3
  %r7 = or i64 %r6, 0
  %r8 = icmp eq i64 %r7, 0
  br i1 %r8, label %run, label %refuse

run:                                              ; preds = %start
  %r9 = call i32 @"+threads::entry"()
  ret i32 %r9

refuse:                                           ; preds = %start
  %r10 = alloca [1 x i8], align 1
  %r11 = getelementptr inbounds nuw i8, ptr %r10, i64 0
  store i8 116, ptr %r11, align 1
  %r12 = call i64 @__write(i32 2, ptr %r10, i64 1)
  ret i32 127
}

declare i64 @__sysv_signal(i32, i64) #6
declare ptr @__x86_get_cpuid_feature_leaf(i32) #6
declare i64 @__write(i32, ptr, i64) #6
declare noundef i64 @syscall(i64 noundef, ptr noundef, i64 noundef, i64 noundef, ptr noundef, ...) #6

attributes #5 = { nounwind "target-cpu"="x86-64" }
attributes #6 = { nounwind }

!1 = !{}
