; a Conditional Move moves unless C is 0, also where only the highest or the lowest bit of C is
; set
        set r1, 110             ; n
        set r2, 121             ; y
        add r0, r1, r6
        cmov r0, r2, r6         ; C is 0
        out r0
        set r3, 1
        add r0, r1, r6
        cmov r0, r2, r3         ; C is 1
        out r0
        set r3, 0x1000000
        set r4, 128
        mul r3, r3, r4          ; C is 2^31
        add r0, r1, r6
        cmov r0, r2, r3
        out r0
        nand r3, r6, r6         ; C is 2^32 - 1
        add r0, r1, r6
        cmov r0, r2, r3
        out r0
        set r3, 65536           ; the lower half of C is 0
        add r0, r1, r6
        cmov r0, r2, r3
        out r0
        halt
