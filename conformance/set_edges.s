; the least and the greatest value of an Orthography, its highest bit, and every other bit
        set r0, 0
        set r7, on1
        set r1, hex
        load r6, r1             ; writes r0
on1:    set r0, 0x1ffffff
        set r7, on2
        set r1, hex
        load r6, r1             ; writes r0
on2:    set r0, 0x1000000
        set r7, on3
        set r1, hex
        load r6, r1             ; writes r0
on3:    set r0, 0x0aaaaaa
        set r7, on4
        set r1, hex
        load r6, r1             ; writes r0
on4:    set r0, 0x1555555
        set r7, on5
        set r1, hex
        load r6, r1             ; writes r0
on5:    set r0, 1
        set r7, on6
        set r1, hex
        load r6, r1             ; writes r0
on6:    halt
; writes r0 as eight hexadecimal digits and LF, and goes on at the place in r7; r6 is 0
hex:    set r1, 0x1000000
        set r2, 16
        mul r1, r1, r2          ; 2^28
digit:  div r2, r0, r1
        mul r3, r2, r1
        nand r3, r3, r3
        add r0, r0, r3
        set r3, 1
        add r0, r0, r3          ; the remainder
        set r3, 10
        div r3, r2, r3
        set r4, 39              ; from ten on the digits are letters
        mul r3, r3, r4
        add r2, r2, r3
        set r3, 48
        add r2, r2, r3
        out r2
        set r2, 16
        div r1, r1, r2
        set r3, line
        set r4, digit
        cmov r3, r4, r1
        load r6, r3
line:   set r2, 10
        out r2
        load r6, r7
