; a scroll that writes its own bytes
next:   index r0, r6, r5        ; r5 is the offset
        set r1, 0x1000000
        div r2, r0, r1
        out r2                  ; the first byte
        mul r2, r2, r1
        nand r2, r2, r2
        add r0, r0, r2
        set r3, 1
        add r0, r0, r3
        set r1, 65536
        div r2, r0, r1
        out r2                  ; the second
        mul r2, r2, r1
        nand r2, r2, r2
        add r0, r0, r2
        add r0, r0, r3
        set r1, 256
        div r2, r0, r1
        out r2                  ; the third
        mul r2, r2, r1
        nand r2, r2, r2
        add r0, r0, r2
        add r0, r0, r3
        out r0                  ; the fourth
        add r5, r5, r3
        set r1, ended
        nand r2, r1, r1
        add r2, r2, r3
        add r2, r2, r5          ; 0 at the end
        set r1, done
        set r3, next
        cmov r1, r3, r2
        load r6, r1
done:   halt
ended:
