; an array of 4,000,000 words: words far apart in it, whose offsets have equal lower bits
        set r1, 4000000
        alloc r5, r1
        set r1, 3999999
        set r2, 97
        amend r5, r1, r2
        set r1, 65536
        set r2, 98
        amend r5, r1, r2
        set r1, 131072
        set r2, 99
        amend r5, r1, r2
        set r1, 2097152
        set r2, 100
        amend r5, r1, r2
        set r1, 65536
        index r0, r5, r1
        out r0
        set r1, 131072
        index r0, r5, r1
        out r0
        set r1, 2097152
        index r0, r5, r1
        out r0
        set r1, 3999999
        index r0, r5, r1
        out r0
        set r2, 48
        index r0, r5, r6
        add r0, r0, r2
        out r0
        set r1, 3999998
        index r0, r5, r1
        add r0, r0, r2
        out r0
        halt
