; a fault in a loaded array, at an offset that the scroll had
        set r1, 3
        alloc r2, r1
        set r1, word
        index r0, r6, r1
        amend r2, r6, r0
        load r2, r6
word:   index r0, r6, r1        ; offset 6 of three words
