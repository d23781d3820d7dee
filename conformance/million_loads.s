; 1,000,000 Loads of an array of 1,000,000 words, in the time that any loop of a few million
; cycles takes
        set r1, 1000000
        alloc r2, r1            ; the array
        set r1, body.len        ; how many words are left to copy
        set r3, body            ; the place of the next word
        set r5, 1
copy:   index r0, r6, r3
        amend r2, r4, r0
        add r3, r3, r5
        add r4, r4, r5
        nand r0, r6, r6
        add r1, r1, r0
        set r0, copied
        set r7, copy
        cmov r0, r7, r1
        load r6, r0
copied: set r0, 0
        set r5, 1000000        ; loads
        nand r7, r6, r6
        load r2, r6
        halt
        .array body
        add r0, r0, r5
        add r5, r5, r7
        set r1, ended
        set r3, again
        cmov r1, r3, r5
        load r6, r1
again:  load r2, r6
ended:  add r0, r0, r6
        set r7, on1
        set r1, hex
        load r6, r1             ; writes r0
on1:    halt
; writes r0 as eight hexadecimal digits and LF, and goes on at the place in r7; r6 is 0
hex:    set r1, 0x1000000
        set r2, 16
        mul r1, r1, r2          ; 2^28
digit:  div r2, r0, r1
        mul r3, r2, r1
        nand r3, r3, r3
        add r0, r0, r3
        set r3, 1
        add r0, r0, r3          ; the remainder
        set r3, 10
        div r3, r2, r3
        set r4, 39              ; from ten on the digits are letters
        mul r3, r3, r4
        add r2, r2, r3
        set r3, 48
        add r2, r2, r3
        out r2
        set r2, 16
        div r1, r1, r2
        set r3, line
        set r4, digit
        cmov r3, r4, r1
        load r6, r3
line:   set r2, 10
        out r2
        load r6, r7
        .end
