; arrays made before and after an abandoned one keep their words
        set r1, 1
        alloc r2, r1
        alloc r3, r1
        alloc r4, r1
        set r0, 97
        amend r2, r6, r0
        set r0, 98
        amend r3, r6, r0
        set r0, 99
        amend r4, r6, r0
        abandon r3
        index r0, r2, r6
        out r0
        index r0, r4, r6
        out r0
        alloc r5, r1            ; perhaps under the identifier that was abandoned
        set r0, 100
        amend r5, r6, r0
        index r0, r2, r6
        out r0
        index r0, r4, r6
        out r0
        index r0, r5, r6
        out r0
        halt
