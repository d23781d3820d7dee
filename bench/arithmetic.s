; about 200,000,000 cycles of arithmetic, then a checksum
        set r1, 1664525
        set r2, 12345
        set r3, 28571428        ; turns
        nand r7, r7, r7         ; all ones: adding it takes 1 away
again:  mul r0, r0, r1
        add r0, r0, r2
        add r3, r3, r7
        set r4, show
        set r5, again
        cmov r4, r5, r3
        load r6, r4
; prints the number in r0 as letters, the lowest first
show:   set r1, 26
        set r6, 0
next:   div r2, r0, r1
        mul r3, r2, r1
        nand r3, r3, r3
        set r4, 1
        add r3, r3, r4
        add r3, r0, r3          ; the remainder
        set r4, 65
        add r3, r3, r4
        out r3
        cmov r0, r2, r1         ; the quotient
        set r4, done
        set r5, next
        cmov r4, r5, r2         ; on unless it is 0
        load r6, r4
done:   set r0, 10
        out r0
        halt
