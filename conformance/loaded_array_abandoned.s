; the loaded array is abandoned, another is made and filled, and array 0 goes on as it was
        set r1, body.len        ; how many words are left to copy
        alloc r2, r1            ; the array
        set r3, body            ; the place of the next word
        set r5, 1
copy:   index r0, r6, r3        ; a word of this scroll
        amend r2, r4, r0
        add r3, r3, r5
        add r4, r4, r5
        nand r0, r6, r6
        add r1, r1, r0
        set r0, copied
        set r7, copy
        cmov r0, r7, r1
        load r6, r0
copied: set r4, 0
        load r2, r4
        halt
        .array body
        abandon r2
        set r0, 97
        out r0
        set r1, last
        index r7, r6, r1        ; a Halt
        set r1, last
        set r3, 1
        add r5, r1, r3          ; as many words as this block
        alloc r2, r5
fill:   nand r1, r6, r6
        add r5, r5, r1
        amend r2, r5, r7        ; nothing but Halts
        set r1, filled
        set r3, fill
        cmov r1, r3, r5
        load r6, r1
filled: set r0, 98
        out r0
last:   halt
        .end
