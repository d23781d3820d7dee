; arrays without words have identifiers of their own, none of them 0, and can be abandoned
        alloc r1, r6
        alloc r2, r6
        nand r3, r2, r2
        add r3, r1, r3
        set r4, 1
        add r3, r3, r4          ; the difference
        set r0, 110
        set r5, 121
        cmov r0, r5, r3
        out r0                  ; y: they differ
        set r0, 110
        cmov r0, r5, r1
        out r0
        set r0, 110
        cmov r0, r5, r2
        out r0
        abandon r1
        abandon r2
        out r5
        halt
