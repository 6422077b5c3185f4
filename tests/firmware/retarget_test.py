#!/usr/bin/env python3
"""Tests firmware/retarget.py: what it makes of a module that has every form it knows, the edits of that module that it must refuse, each for its own
reason, and that it takes the module of the C calls.

Usage: retarget_test.py MODULE HEADER"""
import os
import re
import sys

sys.path.insert(0, os.path.join(os.path.dirname(__file__), '..', '..', 'firmware'))
import retarget  # noqa: E402

HEADER = '''
/* Sums bytes; a comment may say total_of(anything); and so may a macro, a text and a function that is defined here. */
#define TOTAL_LIMIT 4
#define TOTAL(bytes, total) \\
    total_of(bytes, sizeof(bytes), total, TOTAL_LIMIT);
#ifdef __cplusplus
extern "C" {
#endif
static inline const char *total_text(uint32_t number) {
    if (number > TOTAL_LIMIT) {
        return "} total_none(void); \\"";
    }
    return total_name(number);
}
uint32_t total_of(const uint8_t *bytes, size_t length, uint16_t *total,
                  uint8_t limit);
uint32_t total_version(void);
#ifdef __cplusplus
}
#endif
'''

# A byte slice is a pointer and a length, in a place of 16 bytes that is set to zero first and that the function called copies. An exported function gives
# its slice another address where it is null.
MODULE = '''
source_filename = "rattle"
target datalayout = "e-m:e-p270:32:32-p271:32:32-p272:64:64-i64:64-i128:128-f80:128-n8:16:32:64-S128"
target triple = "x86_64-unknown-linux-gnu"

define internal noundef zeroext i1 @"total::is_below"(i8 noundef %a0, i8 noundef %a1, i1 noundef zeroext %a2) #0 { ; a comment
start:
  %r0 = icmp ult i8 %a0, %a1
  %r1 = and i1 %r0, %a2
  ret i1 %r1
}

define internal void @"total::add"(ptr noundef %a0, ptr noundef %a1, i8 noundef %a2) #0 {
start:
  %r0 = alloca [16 x i8], align 8
  call void @llvm.memmove.p0.p0.i64(ptr %r0, ptr %a0, i64 16, i1 false)
  %r1 = alloca ptr, align 8
  %r2 = alloca i64, align 8
  store i64 0, ptr %r2, align 8
  store ptr %a1, ptr %r1, align 8
  br label %loop.1

loop.1:                                           ; preds = %ok.3, %start
  %r3 = load i64, ptr %r2, align 8, !noundef !1
  %r4 = getelementptr i8, ptr %r0, i64 8
  %r5 = load i64, ptr %r4, align 8, !noundef !1
  %r6 = icmp ult i64 %r3, %r5
  br i1 %r6, label %then.2, label %after.4

then.2:                                           ; preds = %loop.1
  %r7 = load ptr, ptr %r0, align 8, !noundef !1
  %r8 = getelementptr inbounds nuw i8, ptr %r7, i64 %r3
  %r9 = load i8, ptr %r8, align 1, !noundef !1
  %r10 = call i1 @"total::is_below"(i8 %r9, i8 %a2, i1 true)
  %r11 = zext i1 %r10 to i16
  %r12 = load ptr, ptr %r1, align 8, !noundef !1
  %r13 = load i16, ptr %r12, align 2, !noundef !1
  %r14 = add nuw i16 %r13, %r11
  store i16 %r14, ptr %r12, align 2
  %r15 = add nuw i64 %r3, 1
  store i64 %r15, ptr %r2, align 8
  switch i8 %a2, label %ok.3 [
    i8 0, label %trap.5
  ]

ok.3:                                             ; preds = %then.2
  br label %loop.1

after.4:                                          ; preds = %loop.1
  ret void

trap.5:                                           ; preds = %then.2
  call void @llvm.trap()
  unreachable
}

define internal { i8, i64, i16 } @"total::limits"(i8 noundef %a0, i16 %a1) #0 {
start:
  %r0 = alloca [24 x i8], align 8
  call void @llvm.memset.p0.i64(ptr %r0, i8 0, i64 24, i1 false)
  %r1 = load { i8, i64, i16 }, ptr %r0, align 8
  ret { i8, i64, i16 } %r1
}

define internal void @"total::pair"(ptr noundef %p0, i8 noundef %p1) #0 {
start:
  %p2 = alloca [6 x i8], align 1
  call void @llvm.memset.p0.i64(ptr %p2, i8 0, i64 6, i1 false)
  store i8 %p1, ptr %p2, align 1
  call void @llvm.memmove.p0.p0.i64(ptr %p0, ptr %p2, i64 6, i1 false)
  ret void
}

define internal i8 @"total::choice"(ptr noundef %c0, i1 noundef %c1) #4 {
start:
  %c2 = alloca [6 x i8], align 1
  call void @llvm.memset.p0.i64(ptr %c2, i8 0, i64 6, i1 false)
  br i1 %c1, label %then.1, label %else.2

then.1:                                           ; preds = %start
  call void @"total::pair"(ptr %c2, i8 7)
  br label %join.3

else.2:                                           ; preds = %start
  call void @llvm.memmove.p0.p0.i64(ptr %c2, ptr %c0, i64 6, i1 false)
  br label %join.3

join.3:                                           ; preds = %else.2, %then.1
  %c3 = load i8, ptr %c2, align 1
  ret i8 %c3
}

define noundef i32 @total_of(ptr noundef %a0, i64 noundef %a1, ptr noundef %a2, i8 noundef %a3) #0 {
start:
  %r0 = alloca [16 x i8], align 8
  call void @llvm.memset.p0.i64(ptr %r0, i8 0, i64 16, i1 false)
  %n0 = icmp eq ptr %a0, null
  %n1 = zext i1 %n0 to i64
  %n2 = mul i64 %n1, 4096
  %n3 = getelementptr i8, ptr %a0, i64 %n2
  store ptr %n3, ptr %r0, align 8
  %r1 = getelementptr i8, ptr %r0, i64 8
  store i64 %a1, ptr %r1, align 8
  %r2 = alloca [24 x i8], align 1
  call void @llvm.memset.p0.i64(ptr %r2, i8 0, i64 24, i1 false)
  store i8 %a3, ptr %r2, align 1
  %r3 = call { i8, i64, i16 } @"total::limits"(i8 %a3, i16 0)
  %r4 = extractvalue { i8, i64, i16 } %r3, 0
  call void @"total::add"(ptr %r0, ptr %a2, i8 %a3)
  ret i32 0
}

define noundef i32 @total_version() #0 {
start:
  ret i32 1
}

declare void @llvm.memmove.p0.p0.i64(ptr writeonly captures(none), ptr readonly captures(none), i64, i1 immarg) #1
declare void @llvm.memset.p0.i64(ptr writeonly captures(none), i8, i64, i1 immarg) #2
declare void @llvm.trap() #3

attributes #0 = { nounwind "probe-stack"="inline-asm" "stack-probe-size"="3072" "target-cpu"="x86-64-v2" }
attributes #1 = { nocallback nofree nounwind willreturn memory(argmem: readwrite) }
attributes #2 = { nocallback nofree nounwind willreturn memory(argmem: write) }
attributes #3 = { cold noreturn nounwind memory(inaccessiblemem: write) }
attributes #4 = { noinline nounwind "probe-stack"="inline-asm" "stack-probe-size"="3072" "target-cpu"="x86-64-v2" }

!llvm.ident = !{!0}

!0 = !{!"rattle logic=097e4c86"}
!1 = !{}
!2 = !{i8 0, i8 2}
'''

TARGET = '''
; a module of the new target
target datalayout = "e-m:e-p:32:32-Fi8-i64:64-v128:64:128-a:0:32-n32-S64"
target triple = "thumbv6m-unknown-none-eabi"
'''

# What differs in the module retargeted: the lines that go and the lines that come.
GONE = [
    'target datalayout = "e-m:e-p270:32:32-p271:32:32-p272:64:64-i64:64-i128:128-f80:128-n8:16:32:64-S128"',
    'target triple = "x86_64-unknown-linux-gnu"',
    'define internal noundef zeroext i1 @"total::is_below"(i8 noundef %a0, i8 noundef %a1, i1 noundef zeroext %a2) #0 {',
    'define internal void @"total::add"(ptr noundef %a0, ptr noundef %a1, i8 noundef %a2) #0 {',
    '  %r1 = alloca ptr, align 8',
    '  %r10 = call i1 @"total::is_below"(i8 %r9, i8 %a2, i1 true)',
    'define internal { i8, i64, i16 } @"total::limits"(i8 noundef %a0, i16 %a1) #0 {',
    '  %r1 = load { i8, i64, i16 }, ptr %r0, align 8',
    'define internal void @"total::pair"(ptr noundef %p0, i8 noundef %p1) #0 {',
    'define internal i8 @"total::choice"(ptr noundef %c0, i1 noundef %c1) #4 {',
    '  call void @llvm.memset.p0.i64(ptr %c2, i8 0, i64 6, i1 false)',
    '  call void @"total::pair"(ptr %c2, i8 7)',
    'define noundef i32 @total_of(ptr noundef %a0, i64 noundef %a1, ptr noundef %a2, i8 noundef %a3) #0 {',
    '  %r3 = call { i8, i64, i16 } @"total::limits"(i8 %a3, i16 0)',
    '  call void @"total::add"(ptr %r0, ptr %a2, i8 %a3)',
    'attributes #0 = { nounwind "probe-stack"="inline-asm" "stack-probe-size"="3072" "target-cpu"="x86-64-v2" }',
    'attributes #4 = { noinline nounwind "probe-stack"="inline-asm" "stack-probe-size"="3072" "target-cpu"="x86-64-v2" }',
]
COME = [
    'target datalayout = "e-m:e-p:32:32-Fi8-i64:64-v128:64:128-a:0:32-n32-S64"',
    'target triple = "thumbv6m-unknown-none-eabi"',
    'define internal noundef i1 @total.is_below(i8 noundef %a0, i8 noundef %a1, i1 noundef %a2) #0 {',
    'define internal void @total.add(ptr noundef %a0, ptr noundef %a1, i8 noundef %a2) #0 {',
    '  %r1 = alloca [8 x i8], align 8',
    '  %r10 = call i1 @total.is_below(i8 %r9, i8 %a2, i1 true)',
    'define internal { i8, i64, i16 } @total.limits(i8 noundef %a0, i16 %a1) #0 {',
    '  %r1.at0 = getelementptr i8, ptr %r0, i64 0',
    '  %r1.part0 = load i8, ptr %r1.at0, align 8',
    '  %r1.with0 = insertvalue { i8, i64, i16 } poison, i8 %r1.part0, 0',
    '  %r1.at1 = getelementptr i8, ptr %r0, i64 8',
    '  %r1.part1 = load i64, ptr %r1.at1, align 8',
    '  %r1.with1 = insertvalue { i8, i64, i16 } %r1.with0, i64 %r1.part1, 1',
    '  %r1.at2 = getelementptr i8, ptr %r0, i64 16',
    '  %r1.part2 = load i16, ptr %r1.at2, align 8',
    '  %r1 = insertvalue { i8, i64, i16 } %r1.with1, i16 %r1.part2, 2',
    'define internal void @total.pair(ptr noundef %p0, i8 noundef %p1) #0 {',
    'define internal i8 @total.choice(ptr noundef %c0, i1 noundef %c1) #4 {',
    '  call void @total.pair(ptr %c2, i8 7)',
    'define noundef i32 @total_of(ptr noundef %a0, i32 noundef %a1.length, ptr noundef %a2, i8 noundef %a3) #0 {',
    '  %a1 = zext i32 %a1.length to i64',
    '  %r3 = call { i8, i64, i16 } @total.limits(i8 %a3, i16 0)',
    '  call void @total.add(ptr %r0, ptr %a2, i8 %a3)',
    'attributes #0 = { optsize nounwind }',
    'attributes #4 = { optsize nounwind }',
]

SLICE = '  store ptr %n3, ptr %r0, align 8\n'
ZERO = 'ptr %r0, i8 0, i64 16, i1 false'
FORM, NUMBERS, PART, UNKNOWN, REACHED = ': ', 'taken for numbers', 'a part of a pointer', 'is no pointer that is known', 'not followed'

# Edits of the module that must be refused: what is wrong, a text that occurs once, what replaces it, and a part of the reason.
MODULE_EDITS = [
    ('a pointer becomes a number', SLICE, SLICE + '  %x = ptrtoint ptr %a0 to i64\n', FORM + '%x = ptrtoint'),
    ('a number becomes a pointer', SLICE, SLICE + '  %x = inttoptr i64 %a1 to ptr\n', FORM + '%x = inttoptr'),
    ('pointers are compared', SLICE, SLICE + '  %x = icmp eq ptr %a0, %a2\n', FORM + '%x = icmp'),
    ('their order is asked for', SLICE, SLICE + '  %x = icmp ult ptr %a0, null\n', FORM + '%x = icmp'),
    ('a number is compared with null', SLICE, SLICE + '  %x = icmp eq ptr %a1, null\n', UNKNOWN),
    ('a record is written', '  ret { i8, i64, i16 } %r1', '  store { i8, i64, i16 } %r1, ptr %r0, align 8\n  ret { i8, i64, i16 } %r1', FORM + 'store { i8'),
    ('a record with a pointer', '%r1 = load { i8, i64, i16 }', '%r1 = load { i8, ptr }', FORM + '%r1 = load'),
    ('a part of a record with a pointer', 'extractvalue { i8, i64, i16 } %r3, 0', 'extractvalue { ptr, i16 } %r3, 0', FORM + '%r4 = extractvalue'),
    ('a pointer is chosen', SLICE, SLICE + '  %x = select i1 true, ptr %a0, ptr %a2\n', FORM + '%x = select'),
    ('a step over pointers', '%r1 = getelementptr i8, ptr %r0, i64 8', '%r1 = getelementptr ptr, ptr %r0, i64 1', FORM + '%r1 = getelementptr'),
    ('a step of 32 bits', '%r1 = getelementptr i8, ptr %r0, i64 8', '%r1 = getelementptr i8, ptr %r0, i32 8', FORM + '%r1 = getelementptr'),
    ('a place of a type of its own', '%r2 = alloca [24 x i8]', '%r2 = alloca { ptr, i64 }', FORM + '%r2 = alloca'),
    ('a place of a length that is not known', '%r2 = alloca [24 x i8]', '%r2 = alloca i8, i64 %a1', FORM + '%r2 = alloca'),
    ('an alignment that the target chooses', SLICE, '  store ptr %n3, ptr %r0\n', FORM + 'store ptr'),
    ('a number that is none', 'store i64 %a1, ptr %r1', 'store i64 poison, ptr %r1', FORM + 'store i64 poison'),
    ('a float', SLICE, SLICE + '  %x = fadd float 1.0, 2.0\n', FORM + '%x = fadd'),
    ('assembly', SLICE, SLICE + '  call void asm sideeffect "nop", ""()\n', FORM + 'call void asm'),
    ('a call outside', SLICE, SLICE + '  call void @puts(ptr %a0)\n', 'call of @puts'),
    ('a call through a pointer', SLICE, SLICE + '  call void %a0()\n', FORM + 'call void %a0'),
    ('another intrinsic', SLICE, SLICE + '  call void @llvm.memcpy.p0.p0.i64(ptr %a0, ptr %a2, i64 1, i1 false)\n', FORM + 'call void @llvm.memcpy'),
    ('a call with another argument', 'call void @"total::add"(ptr %r0, ptr %a2', 'call void @"total::add"(ptr %r0, i64 %a1', 'call of @"total::add"'),
    ('a call with fewer', 'call void @"total::add"(ptr %r0, ptr %a2, i8 %a3)', 'call void @"total::add"(ptr %r0, ptr %a2)', 'call of @"total::add"'),
    ('an argument of a kind of its own', '"(ptr %r0, ptr %a2, i8 %a3)', '"(ptr byval(i64) %r0, ptr %a2, i8 %a3)', 'call of @"total::add"'),
    ('a parameter of a kind of its own', '@"total::add"(ptr noundef %a0,', '@"total::add"(ptr dereferenceable(16) %a0,', FORM + 'define'),
    ('a result that is a pointer', 'define noundef i32 @total_version', 'define noundef ptr @total_version', FORM + 'define'),
    ('a function defined twice', 'define noundef i32 @total_version() #0 {', 'define internal void @"total::add"() #0 {', FORM + 'define'),
    ('a global', 'source_filename = "rattle"', 'source_filename = "rattle"\n@g = global i64 0, align 8', FORM + '@g'),
    ('a constant', 'source_filename = "rattle"', 'source_filename = "rattle"\n@g = constant [2 x ptr] zeroinitializer', FORM + '@g'),
    ('a type', 'source_filename = "rattle"', 'source_filename = "rattle"\n%t = type { ptr }', FORM + '%t'),
    ('a declared function', 'declare void @llvm.trap() #3', 'declare void @llvm.trap() #3\ndeclare void @puts(ptr) #3', FORM + 'declare'),
    ('another attribute of functions', '#0 = { nounwind "probe', '#0 = { nounwind "frame-pointer"="all" "probe', FORM + 'attributes'),
    ('another beside noinline', '#4 = { noinline nounwind', '#4 = { noinline optnone nounwind', FORM + 'attributes'),
    ('a function of an intrinsic\'s attributes', '@total_version() #0', '@total_version() #3', 'no whole module'),
    ('a function of no attributes', '@total_version() #0', '@total_version() #9', 'no whole module'),
    ('attributes that no function has', 'i1 noundef %c1) #4', 'i1 noundef %c1) #0', 'no whole module'),
    ('the same attributes twice', 'attributes #4 = { noinline nounwind', 'attributes #0 = { noinline nounwind', 'no whole module'),
    ('attributes of an intrinsic under the number of a function\'s', 'attributes #3 = {', 'attributes #4 = {', 'no whole module'),
    ('an intrinsic of a function\'s attributes', '@llvm.trap() #3', '@llvm.trap() #4', 'no whole module'),
    ('a flag of the module', '!1 = !{}', '!1 = !{}\n!llvm.module.flags = !{!2}', FORM + '!llvm.module.flags'),
    ('another source', 'source_filename = "rattle"', 'source_filename = "other"', FORM + 'source_filename'),
    ('another target', 'x86_64-unknown-linux-gnu', 'aarch64-unknown-linux-gnu', FORM + 'target triple'),
    ('no target', 'target triple = "x86_64-unknown-linux-gnu"\n', '', 'no whole module'),
    ('a module cut off', '  unreachable\n}', '  unreachable', FORM),
    ('a pointer is read as a number', SLICE, SLICE + '  %x = load i64, ptr %r0, align 8\n', NUMBERS),
    ('its second half is read', SLICE, SLICE + '  %x = getelementptr i8, ptr %r0, i64 4\n  %y = load i32, ptr %x, align 4\n', NUMBERS),
    ('a number is written over it', SLICE, SLICE + '  store i8 0, ptr %r0, align 1\n', NUMBERS),
    ('a number is written over its end', SLICE, SLICE + '  %x = getelementptr i8, ptr %r0, i64 7\n  store i16 0, ptr %x, align 1\n', NUMBERS),
    ('a byte of its place is read, which one is not known', SLICE, SLICE
     + '  %x = getelementptr i8, ptr %r0, i64 %a1\n  %y = load i8, ptr %x, align 1\n', NUMBERS),
    ('it is filled with a byte', ZERO, 'ptr %r0, i8 1, i64 16, i1 false', NUMBERS),
    ('it is filled with a byte that is not known', ZERO, 'ptr %r0, i8 %a3, i64 16, i1 false', NUMBERS),
    ('its first half is set to zero', ZERO, 'ptr %r0, i8 0, i64 4, i1 false', 'a part of a pointer is set to zero'),
    ('its end is set to zero', SLICE, SLICE + '  %x = getelementptr i8, ptr %r0, i64 6\n'
     '  call void @llvm.memset.p0.i64(ptr %x, i8 0, i64 10, i1 false)\n', 'a part of a pointer is set to zero'),
    ('zeros from where is not known', SLICE, SLICE + '  %x = getelementptr i8, ptr %r0, i64 %a1\n'
     '  call void @llvm.memset.p0.i64(ptr %x, i8 0, i64 16, i1 false)\n', NUMBERS),
    ('it is read as a record', SLICE, SLICE + '  %x = load { i8, i16 }, ptr %r0, align 2\n', NUMBERS),
    ('a record reaches into it', SLICE, SLICE + '  %x = alloca [16 x i8], align 8\n  %y = getelementptr i8, ptr %x, i64 3\n'
     '  store ptr %a2, ptr %y, align 1\n  %z = load { i8, i16 }, ptr %x, align 2\n', NUMBERS),
    ('its place is filled by a length that is not known', SLICE, SLICE
     + '  call void @llvm.memset.p0.i64(ptr %r0, i8 0, i64 %a1, i1 false)\n', NUMBERS),
    ('it is read as a number where its place was copied to', '  %r1 = alloca ptr, align 8\n', '  %x = load i8, ptr %r0, align 1\n'
     '  %r1 = alloca ptr, align 8\n', NUMBERS),
    ('it is read as a number in the function called', '  %r1 = alloca ptr, align 8\n', '  %x = load i32, ptr %a0, align 4\n'
     '  %r1 = alloca ptr, align 8\n', NUMBERS),
    ('a length is read as a pointer in the function called', '  %r5 = load i64, ptr %r4', '  %r5 = load ptr, ptr %r4', NUMBERS),
    ('a place of one pointer is read as a number', '  %r12 = load ptr, ptr %r1', '  %x = load i64, ptr %r1, align 8\n  %r12 = load ptr, ptr %r1', NUMBERS),
    ('a part of it is copied', 'ptr %r0, ptr %a0, i64 16, i1 false', 'ptr %r0, ptr %a0, i64 4, i1 false', PART),
    ('its end is passed on', 'call void @"total::add"(ptr %r0', '%x = getelementptr i8, ptr %r0, i64 4\n  call void @"total::add"(ptr %x', PART),
    ('its place is copied by a length that is not known', 'ptr %r0, ptr %a0, i64 16, i1 false', 'ptr %r0, ptr %a0, i64 %r99, i1 false', REACHED),
    ('its place is passed on, from where is not known', 'call void @"total::add"(ptr %r0', '%x = getelementptr i8, ptr %r0, i64 %a1\n'
     '  call void @"total::add"(ptr %x', REACHED),
    ('the address of its place is written', SLICE, SLICE + '  %x = alloca ptr, align 8\n  store ptr %r0, ptr %x, align 8\n', REACHED),
    ('a pointer is written behind a pointer that was read', '  store i16 %r14, ptr %r12, align 2', '  %x = getelementptr i8, ptr %r12, i64 0\n'
     '  store ptr %a0, ptr %x, align 8', 'at an offset that is not known'),
    ('a pointer is written behind a parameter whose address is written', SLICE, SLICE + '  store ptr %a0, ptr %a2, align 8\n', REACHED),
    ('a pointer that is written is none', SLICE, '  store ptr 0, ptr %r0, align 8\n', UNKNOWN),
    ('a number is used as a pointer', '  store i64 %a1, ptr %r1, align 8', '  store i64 %a1, ptr %a1, align 8', UNKNOWN),
    ('an exported result narrower than the register', 'define noundef i32 @total_version() #0 {\nstart:\n  ret i32 1',
     'define noundef i8 @total_version() #0 {\nstart:\n  ret i8 1', 'the header declares'),
    ('an exported function that starts by no label', '@total_version() #0 {\nstart:', '@total_version() #0 {', 'not the start of a function'),
    ('an exported parameter more', '@total_version() #0', '@total_version(i8 noundef %a0) #0', 'the header declares'),
    ('an exported function that is not declared', 'define internal void @"total::add"', 'define void @"total::add"', 'exported, but not declared'),
]

# Edits of the module in which the zeros of %c2 are needed, or clang is to see that they are not.
BEGIN, WRITE, COPY = '  br i1 %c1, label %then.1', '  store i8 %p1, ptr %p2, align 1', 'ptr %c2, ptr %c0, i64 6, i1 false'
SET = '  call void @llvm.memset.p0.i64(ptr %c2, i8 0, i64 6, i1 false)\n'
ZERO_EDITS = [
    ('it is read first', BEGIN, '  %x = load i8, ptr %c2, align 1\n' + BEGIN),
    ('a part of it is read first', BEGIN, '  %x = getelementptr i8, ptr %c2, i64 1\n  %y = load i8, ptr %x, align 1\n' + BEGIN),
    ('a part of it is written first', BEGIN, '  store i8 0, ptr %c2, align 1\n' + BEGIN),
    ('it is copied first', BEGIN, '  call void @llvm.memmove.p0.p0.i64(ptr %c0, ptr %c2, i64 6, i1 false)\n' + BEGIN),
    ('its address is written', BEGIN, '  %x = alloca ptr, align 8\n  store ptr %c2, ptr %x, align 8\n' + BEGIN),
    ('one way does not write it', '  call void @llvm.memmove.p0.p0.i64(' + COPY + ')\n', ''),
    ('a part of it is copied over', COPY, 'ptr %c2, ptr %c0, i64 5, i1 false'),
    ('a length that is not known is copied over', COPY, 'ptr %c2, ptr %c0, i64 %c4, i1 false'),
    ('it is copied over itself', COPY, 'ptr %c2, ptr %c2, i64 6, i1 false'),
    ('it is written before', SET, '  call void @llvm.memmove.p0.p0.i64(' + COPY + ')\n' + SET),
    ('a function reads what it is to write', WRITE, '  %x = load i8, ptr %p0, align 1\n' + WRITE),
    ('a function writes another length', 'ptr %p0, ptr %p2, i64 6', 'ptr %p0, ptr %p2, i64 5'),
    ('a function writes two lengths', WRITE, '  call void @llvm.memmove.p0.p0.i64(ptr %p0, ptr %p2, i64 5, i1 false)\n' + WRITE),
    ('a function can return without writing', WRITE, '  br i1 true, label %no.1, label %yes.2\n\nno.1:\n  ret void\n\nyes.2:\n' + WRITE),
    ('a function is given a part of it', 'ptr %c2, i8 7', 'ptr %c2.part, i8 7'),
    ('a part of it is set to zero', 'ptr %c2, i8 0, i64 6', 'ptr %c2, i8 0, i64 5'),
    ('it is set to another number', 'ptr %c2, i8 0, i64 6', 'ptr %c2, i8 1, i64 6'),
    ('it is set to zero where the function has begun', SET, ''),
]

# Edits of the header that must be refused.
HEADER_EDITS = [
    ('lengths of 64 bits', 'size_t length', 'uint64_t length', 'the header declares'),
    ('a length before its bytes', 'const uint8_t *bytes, size_t length', 'size_t length, const uint8_t *bytes', 'the header declares'),
    ('another width', 'uint8_t limit', 'uint16_t limit', 'the header declares'),
    ('a signed number', 'uint8_t limit', 'int8_t limit', 'the header declares'),
    ('another result', 'uint32_t total_version', 'uint16_t total_version', 'the header declares'),
    ('a declaration less', 'uint32_t total_version(void);', '', 'not declared: total_version'),
]

# Both agree, and yet a number of 64 bits is no length: the register is to be narrowed only where it is one.
WIDE = (('ptr noundef %a2, i8 noundef %a3', 'i64 noundef %a2, i8 noundef %a3'), ('"(ptr %r0, ptr %a2', '"(ptr %r0, ptr %r2'),
        ('uint16_t *total', 'size_t total'))

TARGET_EDITS = [
    ('pointers of 64 bits', 'p:32:32', 'p:64:64', 'not little-endian with 32-bit pointers'),
    ('big-endian', '"e-m:e', '"E-m:e', 'not little-endian with 32-bit pointers'),
    ('no layout', 'target datalayout', 'target layout', 'not little-endian with 32-bit pointers'),
]

wrong = []


def made(module, header, target):
    """The module retargeted."""
    lines = retarget.read_lines(module)
    functions = retarget.read_functions(lines)
    retarget.Places(functions)
    retarget.hold_to_header(functions, retarget.read_header(header))
    return retarget.retargeted(lines, functions, retarget.read_target(target), ['optsize'])


def edited(name, text, old, new):
    if text.count(old) != 1:
        wrong.append(f'{name}: what is to be edited occurs {text.count(old)} times')
    return text.replace(old, new)


def must_refuse(name, module, header, target, reason):
    try:
        made(module, header, target)
        wrong.append(f'{name}: not refused')
    except retarget.Refused as refusal:
        if reason not in str(refusal):
            wrong.append(f'{name}: refused for another reason: {refusal}')


def test_result():
    before, after = retarget.read_lines(MODULE), made(MODULE, HEADER, TARGET).splitlines()
    if [line for line in before if line not in after] != GONE or [line for line in after if line not in before] != COME:
        wrong.append('the module retargeted differs in other lines than it should')
    if [line for line in before if line in after] != [line for line in after if line in before]:
        wrong.append('lines of the module are in another order')
    met = {kind for function in retarget.read_functions(before).values() for _, kind, _ in function.body}
    if met != set(retarget.FORMS):
        wrong.append(f'forms that the module does not have: {set(retarget.FORMS) - met}')


def test_refusals():
    for name, old, new, reason in MODULE_EDITS:
        must_refuse(name, edited(name, MODULE, old, new), HEADER, TARGET, reason)
    for name, old, new, reason in HEADER_EDITS:
        must_refuse(name, MODULE, edited(name, HEADER, old, new), TARGET, reason)
    for name, old, new, reason in TARGET_EDITS:
        must_refuse(name, MODULE, HEADER, edited(name, TARGET, old, new), reason)
    name = 'a number of 64 bits that is no length'
    must_refuse(name, edited(name, edited(name, MODULE, *WIDE[0]), *WIDE[1]), edited(name, HEADER, *WIDE[2]), TARGET, name)
    return len(MODULE_EDITS) + len(HEADER_EDITS) + len(TARGET_EDITS) + 1


def test_zeros():
    begun = '\nthen.1:                                           ; preds = %start\n  call void @"total::pair"'
    for name, old, new in ZERO_EDITS:
        module = edited(name, MODULE, old, new)
        if name == 'a function is given a part of it':
            module = edited(name, module, BEGIN, '  %c2.part = getelementptr i8, ptr %c2, i64 0\n' + BEGIN)
        if name == 'a length that is not known is copied over':
            module = edited(name, module, BEGIN, '  %c4 = zext i1 %c1 to i64\n' + BEGIN)
        if not new:
            module = module if old != SET else edited(name, module, begun, begun.replace('  call', SET + '  call'))
        lines = made(module, HEADER, TARGET).splitlines()
        if not any(line.startswith('  call void @llvm.memset.p0.i64(ptr %c2, ') for line in lines):
            wrong.append(f'{name}: its zeros are gone')
    return len(ZERO_EDITS)


def test_calls(module, header):
    """The module of the C calls is taken, and each line that is not of the new forms is left as it was but for its names."""
    with open(module, encoding='utf-8') as file:
        before = file.read()
    with open(header, encoding='utf-8') as file:
        after = made(before, file.read(), TARGET).splitlines()
    kept = {re.sub(r'@"([\w:]+)"', lambda name: '@' + name[1].replace('::', '.'), line) for line in retarget.read_lines(before)}
    new = [line for line in after if line not in kept and not line.startswith(('define ', 'target ')) and not line.endswith(' = { optsize nounwind }')]
    parts = re.compile(r'  %[\w.]+ = (?:getelementptr i8, ptr %\w+, i64 \d+|load i\d+, ptr %\w+\.at\d+, align \d+|insertvalue {[^}]*} (?:poison|%[\w.]+), i\d+ %\w+\.part\d+, \d+)')
    if any('= alloca [8 x i8], align' not in line and '.length to i64' not in line and not parts.fullmatch(line) for line in new):
        wrong.append('a line of the C calls is changed that should not be')


def main():
    if len(sys.argv) != 3:
        sys.exit(__doc__)
    test_result()
    refused = test_refusals()
    needed = test_zeros()
    test_calls(*sys.argv[1:])
    if wrong:
        sys.exit('\n'.join(wrong))
    print(f'retarget: a module of every form as it must be, {refused} wrong ones refused, zeros kept in {needed}, the module of the C calls taken')


if __name__ == '__main__':
    main()
