; an array of 70,000 new words, which are Conditional Moves that change nothing, is run from its
; first to its last two
        set r1, 70000
        alloc r5, r1
        set r1, 69998
        set r2, word
        index r0, r6, r2
        amend r5, r1, r0
        set r3, 1
        add r1, r1, r3
        add r2, r2, r3
        index r0, r6, r2
        amend r5, r1, r0
        set r0, 97
        load r5, r6
word:   out r0
        halt
