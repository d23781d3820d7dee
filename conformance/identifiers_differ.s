; a thousand active arrays have identifiers that differ and are not 0: each keeps its own
        set r7, 1000
        alloc r5, r7            ; the list of their identifiers
        nand r4, r6, r6
make:   add r7, r7, r4
        set r1, 1
        alloc r2, r1
        amend r2, r6, r2        ; each holds its own identifier
        amend r5, r7, r2
        set r1, made
        set r3, make
        cmov r1, r3, r7
        load r6, r1
made:   set r7, 1000
look:   add r7, r7, r4
        index r2, r5, r7
        index r3, r2, r6
        nand r3, r3, r3
        add r3, r3, r2
        set r1, 1
        add r3, r3, r1          ; 0: it is its own still
        set r1, 1
        cmov r0, r1, r3
        set r1, 0
        cmov r1, r6, r2
        set r3, seen
        set r1, look
        cmov r3, r1, r7
        load r6, r3
seen:   set r1, 48
        add r0, r0, r1
        out r0                  ; 0
        halt
