; an Orthography into each register, whose number stands in the bits 25 to 27
        set r0, 97
        set r1, 98
        set r2, 99
        set r3, 100
        set r4, 101
        set r5, 102
        set r6, 103
        set r7, 104
        out r0
        out r1
        out r2
        out r3
        out r4
        out r5
        out r6
        out r7
        halt
