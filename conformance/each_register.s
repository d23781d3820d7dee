; each register in the place of A, of B and of C
        set r0, 1
        add r1, r0, r0
        add r2, r1, r1
        add r3, r2, r2
        add r4, r3, r3
        add r5, r4, r4
        add r6, r5, r5
        add r7, r6, r6
        out r0
        out r1
        out r2
        out r3
        out r4
        out r5
        out r6
        out r7
        div r0, r7, r1
        div r7, r7, r3
        add r7, r7, r0
        out r7
        halt
