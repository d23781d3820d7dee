; prints: ABCDEFGHIJKLMNOPQRSTUVWXYZ
; bench/brainfuck/alphabet.bf, as bench/brainfuck.py compiles it: a program of another language, made by a compiler
        set r6, 1
        set r3, 255
        set r0, 30000
        alloc r5, r0            ; the cells
        set r0, 1               ; >
        add r4, r4, r0
        index r0, r5, r4        ; ++++++++
        set r1, 8
        add r0, r0, r1
        nand r0, r0, r3
        nand r0, r0, r0
        amend r5, r4, r0
begin1:
        index r0, r5, r4        ; [
        set r1, after1
        set r2, inside1
        cmov r1, r2, r0
        load r7, r1
inside1:
        set r0, 1               ; <
        nand r0, r0, r0
        add r0, r0, r6
        add r4, r4, r0
        index r0, r5, r4        ; ++++++++
        set r1, 8
        add r0, r0, r1
        nand r0, r0, r3
        nand r0, r0, r0
        amend r5, r4, r0
        set r0, 1               ; >
        add r4, r4, r0
        index r0, r5, r4        ; -
        set r1, 255
        add r0, r0, r1
        nand r0, r0, r3
        nand r0, r0, r0
        amend r5, r4, r0
        set r1, begin1          ; ]
        load r7, r1
after1:
        set r0, 1               ; <
        nand r0, r0, r0
        add r0, r0, r6
        add r4, r4, r0
        index r0, r5, r4        ; +
        set r1, 1
        add r0, r0, r1
        nand r0, r0, r3
        nand r0, r0, r0
        amend r5, r4, r0
        set r0, 2               ; >>
        add r4, r4, r0
        index r0, r5, r4        ; +++++
        set r1, 5
        add r0, r0, r1
        nand r0, r0, r3
        nand r0, r0, r0
        amend r5, r4, r0
begin2:
        index r0, r5, r4        ; [
        set r1, after2
        set r2, inside2
        cmov r1, r2, r0
        load r7, r1
inside2:
        set r0, 1               ; <
        nand r0, r0, r0
        add r0, r0, r6
        add r4, r4, r0
        index r0, r5, r4        ; +++++
        set r1, 5
        add r0, r0, r1
        nand r0, r0, r3
        nand r0, r0, r0
        amend r5, r4, r0
        set r0, 1               ; >
        add r4, r4, r0
        index r0, r5, r4        ; -
        set r1, 255
        add r0, r0, r1
        nand r0, r0, r3
        nand r0, r0, r0
        amend r5, r4, r0
        set r1, begin2          ; ]
        load r7, r1
after2:
        set r0, 1               ; <
        nand r0, r0, r0
        add r0, r0, r6
        add r4, r4, r0
        index r0, r5, r4        ; +
        set r1, 1
        add r0, r0, r1
        nand r0, r0, r3
        nand r0, r0, r0
        amend r5, r4, r0
begin3:
        index r0, r5, r4        ; [
        set r1, after3
        set r2, inside3
        cmov r1, r2, r0
        load r7, r1
inside3:
        set r0, 1               ; <
        nand r0, r0, r0
        add r0, r0, r6
        add r4, r4, r0
        index r0, r5, r4        ; .
        out r0
        index r0, r5, r4        ; +
        set r1, 1
        add r0, r0, r1
        nand r0, r0, r3
        nand r0, r0, r0
        amend r5, r4, r0
        set r0, 1               ; >
        add r4, r4, r0
        index r0, r5, r4        ; -
        set r1, 255
        add r0, r0, r1
        nand r0, r0, r3
        nand r0, r0, r0
        amend r5, r4, r0
        set r1, begin3          ; ]
        load r7, r1
after3:
        index r0, r5, r4        ; ++++++++++
        set r1, 10
        add r0, r0, r1
        nand r0, r0, r3
        nand r0, r0, r0
        amend r5, r4, r0
        index r0, r5, r4        ; .
        out r0
        halt
