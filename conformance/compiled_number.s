; a compiled drawing: the number 2 in unary
set r7, 2
alloc r1, r7
set r3, 176
alloc r4, r3
nand r7, r0, r0
add r3, r3, r7
set r5, 51
add r5, r5, r3
index r5, r0, r5
amend r4, r3, r5
set r5, 14
set r6, 5
cmov r5, r6, r3
load r0, r5
set r5, 0
amend r1, r5, r4
set r3, 264
alloc r4, r3
nand r7, r0, r0
add r3, r3, r7
set r5, 227
add r5, r5, r3
index r5, r0, r5
amend r4, r3, r5
set r5, 28
set r6, 19
cmov r5, r6, r3
load r0, r5
set r5, 1
amend r1, r5, r4
set r7, 0
index r3, r2, r7
set r7, 0
index r4, r2, r7
set r7, 0
index r5, r1, r7
set r7, 35
alloc r6, r7
amend r6, r0, r2
cmov r2, r6, r6
set r7, 1
set r6, 1
amend r2, r7, r6
set r7, 2
set r6, 0
amend r2, r7, r6
set r7, 3
amend r2, r7, r3
set r7, 4
amend r2, r7, r4
load r5, r0
set r7, 3
index r3, r2, r7
set r7, 3
index r4, r2, r7
set r7, 3
index r5, r2, r7
cmov r3, r4, r5
set r7, 10
amend r2, r7, r3
set r7, 4
index r3, r2, r7
set r7, 4
index r4, r2, r7
set r7, 4
index r5, r2, r7
cmov r3, r4, r5
set r7, 10
amend r2, r7, r3
set r7, 7
index r3, r2, r7
set r7, 7
index r4, r2, r7
set r7, 4
alloc r5, r7
set r7, 0
amend r5, r7, r3
set r7, 1
amend r5, r7, r4
set r7, 14
amend r2, r7, r5
set r7, 14
index r3, r2, r7
set r7, 7
index r4, r2, r7
set r7, 4
alloc r5, r7
set r7, 0
amend r5, r7, r3
set r7, 1
amend r5, r7, r4
set r7, 15
amend r2, r7, r5
set r7, 7
index r3, r2, r7
set r7, 15
index r4, r2, r7
set r7, 4
alloc r5, r7
set r7, 0
amend r5, r7, r3
set r7, 1
amend r5, r7, r4
set r7, 16
amend r2, r7, r5
set r7, 7
index r3, r2, r7
set r7, 16
index r4, r2, r7
set r7, 4
alloc r5, r7
set r7, 0
amend r5, r7, r3
set r7, 1
amend r5, r7, r4
set r7, 17
amend r2, r7, r5
set r7, 17
index r3, r2, r7
set r7, 17
index r4, r2, r7
set r7, 17
index r5, r2, r7
cmov r3, r4, r5
set r7, 8
amend r2, r7, r3
set r3, 0
set r7, 10
amend r2, r7, r3
set r3, 0
set r7, 11
amend r2, r7, r3
set r7, 11
index r3, r2, r7
set r7, 10
index r4, r2, r7
set r7, 8
index r5, r2, r7
cmov r3, r4, r5
set r7, 11
amend r2, r7, r3
set r7, 10
index r3, r2, r7
set r7, 8
index r4, r2, r7
set r7, 8
index r5, r2, r7
cmov r3, r4, r5
set r7, 10
amend r2, r7, r3
set r3, 1
set r7, 13
amend r2, r7, r3
set r7, 13
index r3, r2, r7
set r7, 7
index r4, r2, r7
set r7, 4
alloc r5, r7
set r7, 0
amend r5, r7, r3
set r7, 1
amend r5, r7, r4
set r7, 13
amend r2, r7, r5
set r7, 13
index r3, r2, r7
set r7, 7
index r4, r2, r7
set r7, 10
index r5, r2, r7
cmov r3, r4, r5
set r7, 6
amend r2, r7, r3
set r3, 2
set r7, 13
amend r2, r7, r3
set r7, 13
index r3, r2, r7
set r7, 7
index r4, r2, r7
set r7, 4
alloc r5, r7
set r7, 0
amend r5, r7, r3
set r7, 1
amend r5, r7, r4
set r7, 13
amend r2, r7, r5
set r7, 6
index r3, r2, r7
set r7, 13
index r4, r2, r7
set r7, 11
index r5, r2, r7
cmov r3, r4, r5
set r7, 6
amend r2, r7, r3
set r7, 6
index r3, r2, r7
set r7, 9
index r4, r2, r7
set r7, 9
index r5, r2, r7
cmov r3, r4, r5
set r7, 6
amend r2, r7, r3
set r7, 10
index r3, r2, r7
set r7, 7
index r4, r2, r7
set r7, 6
index r5, r2, r7
cmov r3, r4, r5
set r7, 5
amend r2, r7, r3
set r7, 5
index r3, r2, r7
set r7, 6
index r4, r2, r7
set r7, 1
index r5, r2, r7
index r5, r1, r5
set r7, 2
index r6, r2, r7
index r2, r2, r0
load r5, r6
set r5, 108
set r6, 6
cmov r5, r6, r3
cmov r2, r4, r4
cmov r2, r3, r3
load r0, r5
set r7, 3
alloc r4, r7
set r7, 105
amend r4, r0, r7
set r7, 1
amend r4, r7, r2
set r7, 2
amend r4, r7, r3
cmov r3, r4, r4
set r7, 0
index r4, r2, r7
set r5, 21
set r6, 43
cmov r5, r6, r4
load r0, r5
set r7, 1
index r4, r2, r7
set r5, 27
set r6, 55
cmov r5, r6, r4
load r0, r5
set r7, 2
index r4, r2, r7
set r5, 33
set r6, 67
cmov r5, r6, r4
load r0, r5
set r7, 40
out r7
set r7, 41
out r7
index r5, r3, r0
set r7, 1
index r2, r3, r7
set r7, 2
index r3, r3, r7
load r0, r5
set r7, 73
out r7
set r7, 110
out r7
set r7, 108
out r7
set r7, 32
out r7
set r7, 0
index r2, r2, r7
set r7, 15
load r0, r7
set r7, 73
out r7
set r7, 110
out r7
set r7, 114
out r7
set r7, 32
out r7
set r7, 1
index r2, r2, r7
set r7, 15
load r0, r7
set r7, 40
out r7
set r7, 3
alloc r4, r7
set r7, 97
amend r4, r0, r7
set r7, 1
amend r4, r7, r2
set r7, 2
amend r4, r7, r3
cmov r3, r4, r4
set r7, 3
alloc r4, r7
set r7, 91
amend r4, r0, r7
set r7, 1
amend r4, r7, r2
set r7, 2
amend r4, r7, r3
cmov r3, r4, r4
set r7, 2
index r2, r2, r7
set r7, 15
load r0, r7
set r7, 44
out r7
set r7, 3
index r2, r2, r7
set r7, 15
load r0, r7
set r7, 41
out r7
index r5, r3, r0
set r7, 1
index r2, r3, r7
set r7, 2
index r3, r3, r7
load r0, r5
set r7, 10
out r7
halt
set r7, 3
alloc r4, r7
set r7, 107
amend r4, r0, r7
set r7, 1
amend r4, r7, r2
set r7, 2
amend r4, r7, r3
cmov r3, r4, r4
set r7, 3
alloc r4, r7
set r7, 142
amend r4, r0, r7
set r7, 1
amend r4, r7, r2
set r7, 2
amend r4, r7, r3
cmov r3, r4, r4
set r7, 1
index r4, r2, r7
set r5, 132
set r6, 138
cmov r5, r6, r4
load r0, r5
index r5, r3, r0
set r7, 1
index r2, r3, r7
set r7, 2
index r3, r3, r7
load r0, r5
set r7, 1
index r2, r2, r7
set r7, 117
load r0, r7
index r5, r2, r0
set r7, 147
add r5, r5, r7
index r5, r0, r5
load r0, r5
cmov r2, r2, r6
cmov r2, r3, r4
cmov r3, r2, r0
index r5, r3, r0
set r7, 1
index r2, r3, r7
set r7, 2
index r3, r3, r7
load r0, r5
set r7, 115
out r7
set r7, 116
out r7
set r7, 117
out r7
set r7, 99
out r7
set r7, 107
out r7
set r7, 58
out r7
set r7, 32
out r7
set r7, 109
out r7
set r7, 97
out r7
set r7, 105
out r7
set r7, 110
out r7
set r7, 58
out r7
set r7, 32
out r7
set r7, 110
out r7
set r7, 111
out r7
set r7, 32
out r7
set r7, 114
out r7
set r7, 101
out r7
set r7, 115
out r7
set r7, 117
out r7
set r7, 108
out r7
set r7, 116
out r7
set r7, 10
out r7
index r5, r3, r0
set r7, 1
index r2, r3, r7
set r7, 2
index r3, r3, r7
load r0, r5
set r7, 115
out r7
set r7, 116
out r7
set r7, 117
out r7
set r7, 99
out r7
set r7, 107
out r7
set r7, 58
out r7
set r7, 32
out r7
set r7, 109
out r7
set r7, 97
out r7
set r7, 105
out r7
set r7, 110
out r7
set r7, 58
out r7
set r7, 32
out r7
set r7, 116
out r7
set r7, 119
out r7
set r7, 111
out r7
set r7, 32
out r7
set r7, 114
out r7
set r7, 101
out r7
set r7, 115
out r7
set r7, 117
out r7
set r7, 108
out r7
set r7, 116
out r7
set r7, 115
out r7
set r7, 10
out r7
index r5, r3, r0
set r7, 1
index r2, r3, r7
set r7, 2
index r3, r3, r7
load r0, r5
