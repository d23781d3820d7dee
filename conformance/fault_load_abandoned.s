; a Load of an array that was abandoned
        set r1, 1
        alloc r2, r1
        abandon r2
        set r0, 1
        load r2, r0
