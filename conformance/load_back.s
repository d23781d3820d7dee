; two arrays that load each other ten times, one of them longer
        set r1, left.len
        alloc r2, r1
        set r3, left
        set r7, copied
copy:   index r0, r6, r3
        amend r2, r4, r0
        set r5, 1
        add r3, r3, r5
        add r4, r4, r5
        nand r0, r6, r6
        add r1, r1, r0
        set r0, next
        set r5, copy
        cmov r0, r5, r1
        load r6, r0
next:   load r6, r7
copied: add r7, r2, r6          ; the identifier of the first
        set r1, right.len
        alloc r2, r1
        set r3, right
        set r4, 0
again:  index r0, r6, r3
        amend r2, r4, r0
        set r5, 1
        add r3, r3, r5
        add r4, r4, r5
        nand r0, r6, r6
        add r1, r1, r0
        set r0, start
        set r5, again
        cmov r0, r5, r1
        load r6, r0
start:  set r5, 10              ; r7 is the left one, r2 the right one
        load r7, r6
        .array left
        set r0, 108
        out r0
        load r2, r6
        .end
        .array right
        set r0, 114
        out r0
        nand r1, r6, r6
        add r5, r5, r1
        set r1, last
        set r3, more
        cmov r1, r3, r5
        load r6, r1
more:   load r7, r6
last:   halt
        .end
