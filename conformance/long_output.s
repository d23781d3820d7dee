; 50,000 bytes of output, the last of which comes right before the Halt
        set r5, 50000
        nand r7, r6, r6
byte:   set r1, 26
        div r2, r5, r1
        mul r2, r2, r1
        nand r2, r2, r2
        set r1, 98
        add r2, r2, r1
        add r2, r2, r5          ; 97 and the remainder
        out r2
        add r5, r5, r7
        set r1, ended
        set r2, byte
        cmov r1, r2, r5
        load r6, r1
ended:  halt
