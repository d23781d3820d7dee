; meets a fault: one of its own words is overwritten, and then it is that word's turn
        set r0, 65
        set r1, say             ; `mark` was meant
        nand r7, r7, r7         ; all ones
        amend r6, r1, r7        ; r6 is 0: into this scroll
say:    out r0
        halt
mark:   .word 0
