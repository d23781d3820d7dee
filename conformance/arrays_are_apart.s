; what is written into one array is seen in no other
        set r1, 2
        alloc r2, r1
        alloc r3, r1
        alloc r4, r1
        set r1, 1
        set r0, 97
        amend r2, r6, r0
        set r0, 98
        amend r2, r1, r0
        set r0, 99
        amend r3, r6, r0
        set r0, 100
        amend r3, r1, r0
        set r0, 101
        amend r4, r6, r0
        set r0, 102
        amend r4, r1, r0
        index r0, r2, r6
        out r0
        index r0, r2, r1
        out r0
        index r0, r3, r6
        out r0
        index r0, r3, r1
        out r0
        index r0, r4, r6
        out r0
        index r0, r4, r1
        out r0
        halt
