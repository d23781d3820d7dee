; 20,000 turns of all arithmetic operators on numbers of all sizes
        set r0, 12345           ; the number of the turn
        set r5, 20000           ; turns
turn:   set r1, 1664525
        mul r0, r0, r1
        set r1, 12345
        add r0, r0, r1
        set r1, 65536
        div r2, r0, r1
        set r1, 1
        add r2, r2, r1
        div r2, r0, r2
        add r7, r7, r2          ; the sum
        nand r7, r7, r0
        set r1, 5
        mul r7, r7, r1
        add r7, r7, r0
        nand r1, r6, r6
        add r5, r5, r1
        set r1, ended
        set r2, turn
        cmov r1, r2, r5
        load r6, r1
ended:  add r0, r7, r6
        set r7, on1
        set r1, hex
        load r6, r1             ; writes r0
on1:    halt
; writes r0 as eight hexadecimal digits and LF, and goes on at the place in r7; r6 is 0
hex:    set r1, 0x1000000
        set r2, 16
        mul r1, r1, r2          ; 2^28
digit:  div r2, r0, r1
        mul r3, r2, r1
        nand r3, r3, r3
        add r0, r0, r3
        set r3, 1
        add r0, r0, r3          ; the remainder
        set r3, 10
        div r3, r2, r3
        set r4, 39              ; from ten on the digits are letters
        mul r3, r3, r4
        add r2, r2, r3
        set r3, 48
        add r2, r2, r3
        out r2
        set r2, 16
        div r1, r1, r2
        set r3, line
        set r4, digit
        cmov r3, r4, r1
        load r6, r3
line:   set r2, 10
        out r2
        load r6, r7
