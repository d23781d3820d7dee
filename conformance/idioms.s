; the idioms of docs/ASSEMBLY.md: minus, a difference, a remainder, not, and, or, less, a call, a
; string, a stack
        nand r0, r6, r6
        set r7, on1
        set r1, hex
        load r6, r1             ; writes r0
on1:    set r5, 1
        set r1, 5
        nand r0, r1, r1
        add r0, r0, r5          ; minus 5
        set r7, on2
        set r1, hex
        load r6, r1             ; writes r0
on2:    set r1, 1000
        set r2, 7
        nand r0, r2, r2
        add r0, r0, r1
        add r0, r0, r5          ; 993
        set r7, on3
        set r1, hex
        load r6, r1             ; writes r0
on3:    set r1, 1000
        set r2, 7
        div r0, r1, r2
        mul r0, r0, r2
        nand r0, r0, r0
        add r0, r0, r1
        add r0, r0, r5          ; 6
        set r7, on4
        set r1, hex
        load r6, r1             ; writes r0
on4:    set r1, 0xf0f0
        nand r0, r1, r1
        set r7, on5
        set r1, hex
        load r6, r1             ; writes r0
on5:    set r1, 0xff00
        set r2, 0x0ff0
        nand r0, r1, r2
        nand r0, r0, r0
        set r7, on6
        set r1, hex
        load r6, r1             ; writes r0
on6:    set r1, 0xff00
        set r2, 0x0ff0
        nand r3, r1, r1
        nand r4, r2, r2
        nand r0, r3, r4
        set r7, on7
        set r1, hex
        load r6, r1             ; writes r0
on7:    set r1, 6
        set r2, 7
        div r0, r1, r2          ; 0: less
        set r7, on8
        set r1, hex
        load r6, r1             ; writes r0
on8:    set r1, 7
        set r2, 7
        div r0, r1, r2          ; 1: not less
        set r7, on9
        set r1, hex
        load r6, r1             ; writes r0
on9:    set r0, 0x1000000
        set r1, 128
        mul r0, r0, r1
        set r7, on10
        set r1, hex
        load r6, r1             ; writes r0
on10:   set r5, 0               ; a stack of 3, 2, 1
        set r0, 3
push:   set r1, 2
        alloc r2, r1
        set r1, 1
        amend r2, r6, r0
        amend r2, r1, r5
        add r5, r2, r6
        nand r1, r6, r6
        add r0, r0, r1
        set r1, pop
        set r3, push
        cmov r1, r3, r0
        load r6, r1
pop:    index r0, r5, r6
        set r1, 1
        index r2, r5, r1
        abandon r5
        add r5, r2, r6
        set r1, 48
        add r0, r0, r1
        out r0
        set r1, popped
        set r3, pop
        cmov r1, r3, r5
        load r6, r1
popped: set r5, 1
        set r1, text
next:   index r0, r6, r1
        set r2, done
        set r3, more
        cmov r2, r3, r0
        load r6, r2
more:   out r0
        add r1, r1, r5
        set r2, next
        load r6, r2
done:   halt
text:   .hex 0000000a00000048000000690000000a00000000
; writes r0 as eight hexadecimal digits and LF, and goes on at the place in r7; r6 is 0
hex:    set r1, 0x1000000
        set r2, 16
        mul r1, r1, r2          ; 2^28
digit:  div r2, r0, r1
        mul r3, r2, r1
        nand r3, r3, r3
        add r0, r0, r3
        set r3, 1
        add r0, r0, r3          ; the remainder
        set r3, 10
        div r3, r2, r3
        set r4, 39              ; from ten on the digits are letters
        mul r3, r3, r4
        add r2, r2, r3
        set r3, 48
        add r2, r2, r3
        out r2
        set r2, 16
        div r1, r1, r2
        set r3, line
        set r4, digit
        cmov r3, r4, r1
        load r6, r3
line:   set r2, 10
        out r2
        load r6, r7
