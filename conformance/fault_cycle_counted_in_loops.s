; cycles are counted over jumps: 1,000 turns of 5, and 3
        set r5, 1000
        nand r7, r6, r6
turn:   add r5, r5, r7
        set r1, ended
        set r2, turn
        cmov r1, r2, r5
        load r6, r1
ended:  div r0, r0, r6
