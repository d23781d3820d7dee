; 500 arrays of 1,000,000 words, each abandoned before the next: only words that are live count
        set r7, 500
        nand r5, r6, r6
turn:   set r1, 1000000
        alloc r2, r1
        abandon r2
        add r7, r7, r5
        set r1, ended
        set r3, turn
        cmov r1, r3, r7
        load r6, r1
ended:  set r0, 97
        out r0
        halt
