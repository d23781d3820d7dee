; each byte of the input as it is, 0, 10, 13, 26 and 255 too, up to the end
byte:   in r0
        nand r1, r0, r0         ; 0 at the end
        set r2, ended
        set r3, more
        cmov r2, r3, r1
        load r6, r2
more:   out r0
        set r2, byte
        load r6, r2
ended:  halt
