; an Index one past the end
        set r1, 5
        alloc r2, r1
        index r0, r2, r1
