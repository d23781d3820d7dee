; 2,000,000 bytes of output, then a checksum
        set r3, 2000000         ; bytes
        nand r7, r7, r7         ; all ones
        set r2, 26
next_byte: div r4, r3, r2
        mul r4, r4, r2
        nand r4, r4, r4
        set r5, 98
        add r4, r4, r5
        add r4, r4, r3          ; 97 and the remainder
        out r4
        add r0, r0, r4
        add r3, r3, r7
        set r4, ended
        set r5, next_byte
        cmov r4, r5, r3
        load r6, r4
ended:  set r4, 10
        out r4
; prints the number in r0 as letters, the lowest first
show:   set r1, 26
        set r6, 0
next:   div r2, r0, r1
        mul r3, r2, r1
        nand r3, r3, r3
        set r4, 1
        add r3, r3, r4
        add r3, r0, r3          ; the remainder
        set r4, 65
        add r3, r3, r4
        out r3
        cmov r0, r2, r1         ; the quotient
        set r4, done
        set r5, next
        cmov r4, r5, r2         ; on unless it is 0
        load r6, r4
done:   set r0, 10
        out r0
        halt
