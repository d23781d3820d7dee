; after a Load an Amendment of the loaded array is not seen in array 0
        set r1, body.len        ; how many words are left to copy
        alloc r2, r1            ; the array
        set r3, body            ; the place of the next word
        set r5, 1
copy:   index r0, r6, r3        ; a word of this scroll
        amend r2, r4, r0
        add r3, r3, r5
        add r4, r4, r5
        nand r0, r6, r6
        add r1, r1, r0
        set r0, copied
        set r7, copy
        cmov r0, r7, r1
        load r6, r0
copied: set r4, 0
        load r2, r4
        halt
        .array body
        set r1, spot
        set r3, other
        index r3, r6, r3
        amend r2, r1, r3        ; the loaded array, not array 0
        set r0, 121
spot:   out r0                  ; would be the Halt
        set r1, spot
        index r3, r2, r1        ; and the loaded array has it
        set r5, other
        index r5, r6, r5
        nand r5, r5, r5
        add r3, r3, r5
        nand r3, r3, r3         ; 0 where the two words are equal
        set r0, 121
        set r4, 110
        cmov r0, r4, r3
        out r0
        halt
other:  halt
        .end
