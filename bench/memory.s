; a walk through an array of 1,048,576 words that reads and writes 5,000,000 of them
        set r1, 1048576
        alloc r2, r1
        set r7, 5000000         ; turns
walk:   set r4, 5
        mul r3, r3, r4
        set r4, 12345
        add r3, r3, r4
        div r4, r3, r1
        mul r4, r4, r1
        nand r4, r4, r4
        set r5, 1
        add r4, r4, r5
        add r3, r3, r4          ; the next offset
        index r5, r2, r3
        add r5, r5, r3
        amend r2, r3, r5
        add r0, r0, r5
        nand r4, r6, r6
        add r7, r7, r4
        set r4, show
        set r5, walk
        cmov r4, r5, r7
        load r6, r4
; prints the number in r0 as letters, the lowest first
show:   set r1, 26
        set r6, 0
next:   div r2, r0, r1
        mul r3, r2, r1
        nand r3, r3, r3
        set r4, 1
        add r3, r3, r4
        add r3, r0, r3          ; the remainder
        set r4, 65
        add r3, r3, r4
        out r3
        cmov r0, r2, r1         ; the quotient
        set r4, done
        set r5, next
        cmov r4, r5, r2         ; on unless it is 0
        load r6, r4
done:   set r0, 10
        out r0
        halt
