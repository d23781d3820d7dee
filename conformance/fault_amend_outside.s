; an Amendment one past the end
        set r1, 5
        alloc r2, r1
        amend r2, r1, r6
