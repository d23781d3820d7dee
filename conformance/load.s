; a Load of another array goes on in its duplicate, and registers stay
        set r1, body.len        ; how many words are left to copy
        alloc r2, r1            ; the array
        set r3, body            ; the place of the next word
        set r5, 1
copy:   index r0, r6, r3        ; a word of this scroll
        amend r2, r4, r0
        add r3, r3, r5
        add r4, r4, r5
        nand r0, r6, r6
        add r1, r1, r0
        set r0, copied
        set r7, copy
        cmov r0, r7, r1
        load r6, r0
copied: set r0, 97
        set r1, 98
        load r2, r6
        halt
        .array body
        out r0
        out r1
        halt
        .end
