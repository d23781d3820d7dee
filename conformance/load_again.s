; a second Load of the same array takes its words anew: what was amended in array 0 is gone
        set r1, body.len        ; how many words are left to copy
        alloc r2, r1            ; the array
        set r3, body            ; the place of the next word
        set r5, 1
copy:   index r0, r6, r3        ; a word of this scroll
        amend r2, r4, r0
        add r3, r3, r5
        add r4, r4, r5
        nand r0, r6, r6
        add r1, r1, r0
        set r0, copied
        set r7, copy
        cmov r0, r7, r1
        load r6, r0
copied: set r4, 0
        set r5, 3
        set r0, 97
        load r2, r4
        halt
        .array body
spot:   out r0                  ; a Halt once it is amended
        set r1, last
        index r3, r6, r1
        set r1, spot
        amend r6, r1, r3
        set r1, 1
        add r0, r0, r1
        nand r1, r6, r6
        add r5, r5, r1
        set r1, last
        set r3, more
        cmov r1, r3, r5
        load r6, r1
more:   load r2, r4
last:   halt
        .end
