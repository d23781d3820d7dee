; 3,000,000 arrays of 20 words, each abandoned one turn later
        set r7, 3000000         ; turns
        set r1, 20
        alloc r3, r1            ; the array of the turn before
turn:   set r1, 20
        alloc r2, r1
        amend r2, r6, r7        ; r6 is 0
        index r4, r2, r6
        add r0, r0, r4
        index r4, r3, r6
        add r0, r0, r4
        abandon r3
        cmov r3, r2, r1
        nand r4, r6, r6
        add r7, r7, r4
        set r4, show
        set r5, turn
        cmov r4, r5, r7
        load r6, r4
; prints the number in r0 as letters, the lowest first
show:   set r1, 26
        set r6, 0
next:   div r2, r0, r1
        mul r3, r2, r1
        nand r3, r3, r3
        set r4, 1
        add r3, r3, r4
        add r3, r0, r3          ; the remainder
        set r4, 65
        add r3, r3, r4
        out r3
        cmov r0, r2, r1         ; the quotient
        set r4, done
        set r5, next
        cmov r4, r5, r2         ; on unless it is 0
        load r6, r4
done:   set r0, 10
        out r0
        halt
