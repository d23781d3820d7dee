; a loop that amends one of its own later words in each turn
        set r5, 5               ; turns
        set r7, 97
loop:   set r1, spot
        set r2, 0x1a00000
        set r3, 128
        mul r2, r2, r3          ; 0xd0000000, an Orthography into r0
        add r2, r2, r7
        amend r6, r1, r2
        set r3, 1
        add r7, r7, r3
spot:   halt
        out r0
        nand r1, r6, r6
        add r5, r5, r1
        set r1, ended
        set r2, loop
        cmov r1, r2, r5
        load r6, r1
ended:  halt
