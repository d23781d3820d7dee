; prints: !
; The block is copied into an array of its own, which is then loaded: its labels count from its
; first word.
        set r1, song.len        ; how many words are left to copy
        alloc r2, r1            ; the array
        set r3, song            ; the place of the next word
        set r6, 1
        nand r7, r7, r7         ; all ones: adding it takes 1 away
next:   index r0, r5, r3        ; r5 is 0: a word of this scroll
        amend r2, r4, r0        ; into the array
        add r3, r3, r6
        add r4, r4, r6
        add r1, r1, r7
        set r0, copied
        set r7, next
        cmov r0, r7, r1
        nand r7, r5, r5
        load r5, r0
copied: load r2, r5             ; the array is the scroll now
        .array song
        set r0, there
        load r5, r0
        halt
there:  set r0, 33
        out r0
        set r0, 10
        out r0
        halt
        .end
