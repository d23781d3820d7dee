; 50,000 active arrays at once, a number in each, read back and abandoned
        set r7, 50000
        alloc r5, r7            ; the list of their identifiers
        nand r4, r6, r6
make:   add r7, r7, r4
        set r1, 3
        alloc r2, r1
        set r1, 2
        amend r2, r1, r7
        amend r5, r7, r2
        set r1, made
        set r3, make
        cmov r1, r3, r7
        load r6, r1
made:   set r7, 50000
look:   add r7, r7, r4
        index r2, r5, r7
        set r1, 2
        index r3, r2, r1
        add r0, r0, r3
        abandon r2
        set r1, seen
        set r3, look
        cmov r1, r3, r7
        load r6, r1
seen:   add r0, r0, r6
        set r7, on1
        set r1, hex
        load r6, r1             ; writes r0
on1:    halt
; writes r0 as eight hexadecimal digits and LF, and goes on at the place in r7; r6 is 0
hex:    set r1, 0x1000000
        set r2, 16
        mul r1, r1, r2          ; 2^28
digit:  div r2, r0, r1
        mul r3, r2, r1
        nand r3, r3, r3
        add r0, r0, r3
        set r3, 1
        add r0, r0, r3          ; the remainder
        set r3, 10
        div r3, r2, r3
        set r4, 39              ; from ten on the digits are letters
        mul r3, r3, r4
        add r2, r2, r3
        set r3, 48
        add r2, r2, r3
        out r2
        set r2, 16
        div r1, r1, r2
        set r3, line
        set r4, digit
        cmov r3, r4, r1
        load r6, r3
line:   set r2, 10
        out r2
        load r6, r7
