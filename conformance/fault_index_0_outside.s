; an Index of array 0 one past its end
        set r1, 2
        index r0, r6, r1
