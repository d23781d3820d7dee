; 3,000,000 loads of an array of 100 words
        set r1, 100
        alloc r2, r1            ; the array
        set r3, body            ; the place of the next word
        set r7, body.len        ; how many words are left to copy
        set r6, 1
copy:   index r0, r5, r3        ; r5 is 0: a word of this scroll
        amend r2, r4, r0
        add r3, r3, r6
        add r4, r4, r6
        nand r0, r5, r5
        add r7, r7, r0
        set r0, copied
        set r1, copy
        cmov r0, r1, r7
        load r5, r0
copied: set r0, 0
        set r1, 99
        set r3, 3000000        ; loads
        nand r7, r5, r5         ; all ones
        set r4, 0
        load r2, r4
        .array body
again:  add r0, r0, r3
        add r3, r3, r7
        set r4, show
        set r5, again
        cmov r4, r5, r3
        load r2, r4
; prints the number in r0 as letters, the lowest first
show:   set r1, 26
        set r6, 0
next:   div r2, r0, r1
        mul r3, r2, r1
        nand r3, r3, r3
        set r4, 1
        add r3, r3, r4
        add r3, r0, r3          ; the remainder
        set r4, 65
        add r3, r3, r4
        out r3
        cmov r0, r2, r1         ; the quotient
        set r4, done
        set r5, next
        cmov r4, r5, r2         ; on unless it is 0
        load r6, r4
done:   set r0, 10
        out r0
        halt
        .end
