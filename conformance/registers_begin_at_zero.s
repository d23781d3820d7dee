; all eight registers are 0 at the start
        add r0, r0, r1
        add r0, r0, r2
        add r0, r0, r3
        add r0, r0, r4
        add r0, r0, r5
        add r0, r0, r6
        add r0, r0, r7
        set r1, 48
        add r0, r0, r1
        out r0
        halt
