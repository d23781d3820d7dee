; an Allocation of 2^32 - 1 words, whose sum with those of the scroll is over 2^32
        nand r0, r6, r6
        alloc r1, r0
        halt
