; four arrays are made after three were abandoned: they are apart
        set r1, 1
        alloc r2, r1
        alloc r3, r1
        alloc r4, r1
        abandon r3
        abandon r2
        abandon r4
        alloc r2, r1
        alloc r3, r1
        alloc r4, r1
        alloc r5, r1
        set r0, 97
        amend r2, r6, r0
        set r0, 98
        amend r3, r6, r0
        set r0, 99
        amend r4, r6, r0
        set r0, 100
        amend r5, r6, r0
        index r0, r2, r6
        out r0
        index r0, r3, r6
        out r0
        index r0, r4, r6
        out r0
        index r0, r5, r6
        out r0
        halt
