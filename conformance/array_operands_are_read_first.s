; Index, Amendment and Allocation of which registers are one
        set r1, 3
        alloc r1, r1            ; its size and its identifier
        set r2, 2
        set r3, 65
        amend r1, r2, r3
        index r2, r1, r2        ; its offset and its result
        out r2
        set r2, 2
        index r1, r1, r2        ; its array and its result
        out r1
        set r1, 100
        alloc r1, r1
        set r2, 66
        amend r1, r2, r2        ; offset 66 becomes 66
        index r2, r1, r2
        out r2
        halt
