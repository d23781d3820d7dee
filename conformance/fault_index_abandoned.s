; an Index of an array that was abandoned
        set r1, 5
        alloc r2, r1
        abandon r2
        index r0, r2, r6
