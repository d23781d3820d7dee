; an Abandonment of an array that was abandoned
        alloc r1, r6
        alloc r2, r6
        abandon r1
        abandon r1
