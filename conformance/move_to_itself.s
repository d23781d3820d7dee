; Conditional Moves of which two or three registers are one
        set r1, 97
        cmov r1, r1, r1
        out r1
        set r2, 98
        cmov r2, r1, r2         ; r2 isn't 0, so it becomes r1
        out r2
        set r3, 99
        cmov r3, r6, r3         ; becomes 0
        cmov r3, r1, r3         ; and now it stays 0
        set r4, 48
        add r4, r4, r3
        out r4
        halt
