; an Output of each byte from 0 to 255, and of nothing else
byte:   out r0
        set r1, 1
        add r0, r0, r1
        set r1, 256
        nand r2, r1, r1
        set r3, 1
        add r2, r2, r3
        add r2, r2, r0          ; 0 at 256
        set r1, ended
        set r3, byte
        cmov r1, r3, r2
        load r6, r1
ended:  halt
