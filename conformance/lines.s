; each line of the input from its last byte to its first, kept in a chain of arrays that are
; abandoned one by one
; r7 is always 0, r6 is 1, r4 is -10; r1 is the line so far: a chain of arrays (byte, rest), or 0
        set r6, 1
        set r5, 10
        nand r4, r5, r5         ; -11
        add r4, r4, r6          ; -10
read:   in r0
        add r2, r0, r6          ; 0 at the end
        set r3, ended
        set r5, byte
        cmov r3, r5, r2
        load r7, r3
byte:   add r2, r0, r4          ; 0 at a LF
        set r3, ended
        set r5, keep
        cmov r3, r5, r2
        load r7, r3
keep:   set r5, 2
        alloc r3, r5
        amend r3, r7, r0
        amend r3, r6, r1
        add r1, r3, r7
        set r3, read
        load r7, r3
ended:  set r3, done            ; the bytes of the chain, the last one first
        set r5, write
        cmov r3, r5, r1
        load r7, r3
write:  index r5, r1, r7
        out r5
        index r3, r1, r6
        abandon r1
        add r1, r3, r7
        set r3, ended
        load r7, r3
done:   add r2, r0, r6          ; 0 at the end
        set r3, bye
        set r5, feed
        cmov r3, r5, r2
        load r7, r3
feed:   out r0
        set r3, read
        load r7, r3
bye:    halt
