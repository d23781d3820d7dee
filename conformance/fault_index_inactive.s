; an Index of an array that never was
        set r1, 7
        index r0, r1, r6
