; bits that an operator does not use have no effect
        set r1, 65
        .hex 3ffffe0e           ; add r0, r1, r6 with the bits 9 to 27 set
        .hex affffff8           ; out r0 with all of the bits 3 to 27 set
        set r1, 66
        .hex 0ffffe09           ; cmov r0, r1, r1
        .hex a5555550           ; out r0
        set r2, 3
        .hex 8fffffda           ; alloc r3, r2: the bits of A are set
        set r4, 2
        set r5, 67
        .hex 2ffffee5           ; amend r3, r4, r5
        .hex 1ffffe1c           ; index r0, r3, r4
        .hex a00001f8           ; out r0: A and B are r7
        .hex 9ffffffb           ; abandon r3
        set r0, go
        .hex cffffff0           ; load r6, r0: the bits of A are set
        .hex 7fffffff
go:     set r1, 5
        set r2, 13
        .hex 4fffe00a           ; mul r0, r1, r2
        .hex a0000000
        set r0, 134
        set r1, 2
        .hex 5000ee01           ; div r0, r0, r1
        .hex a0000000
        set r1, 90
        .hex 6ffffe09           ; nand r0, r1, r1
        .hex 60abfe00           ; nand r0, r0, r0
        .hex a0000000
        .hex 7fffffff           ; halt with every other bit set
        out r1
