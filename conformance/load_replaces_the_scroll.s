; after a Load array 0 holds the words of the loaded array, from its first on
        set r1, body.len        ; how many words are left to copy
        alloc r2, r1            ; the array
        set r3, body            ; the place of the next word
        set r5, 1
copy:   index r0, r6, r3        ; a word of this scroll
        amend r2, r4, r0
        add r3, r3, r5
        add r4, r4, r5
        nand r0, r6, r6
        add r1, r1, r0
        set r0, copied
        set r7, copy
        cmov r0, r7, r1
        load r6, r0
copied: set r1, 0
        load r2, r1
        halt
        .array body
        set r1, data
        index r0, r6, r1
        out r0
        set r2, 1
        add r1, r1, r2
        index r0, r6, r1
        out r0
        set r1, there
        load r6, r1             ; a jump in the duplicate
        halt
there:  set r0, 33
        out r0
        halt
data:   .word 111
        .word 107
        .end
