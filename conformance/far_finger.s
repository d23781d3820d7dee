; a Load to an offset over 65,536, and a jump from there to another
        set r1, 200000
        alloc r5, r1
        set r1, 131072          ; 2^17: `load r6, r4`
        set r2, word
        index r0, r6, r2
        amend r5, r1, r0
        set r3, 1
        add r2, r2, r3
        set r4, 199998          ; `out r0` and a Halt
        index r0, r6, r2
        amend r5, r4, r0
        add r2, r2, r3
        set r4, 199999
        index r0, r6, r2
        amend r5, r4, r0
        set r4, 199998
        set r0, 97
        load r5, r1
word:   load r6, r4
        out r0
        halt
