; a Load hands out no identifier
        set r1, 3
        alloc r2, r1
        set r1, word
        index r0, r6, r1
        amend r2, r6, r0
        set r1, 1
        set r3, word
        add r3, r3, r1
        index r0, r6, r3
        amend r2, r1, r0
        set r1, 2
        set r3, word
        add r3, r3, r1
        index r0, r6, r3
        amend r2, r1, r0
        set r1, 48
        load r2, r6
word:   alloc r0, r6            ; 2
        add r0, r0, r1
        out r0                  ; and then there is no word
