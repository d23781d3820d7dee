; an Allocation of 2^28 words, which with those of the scroll are over the limit
        set r3, 0x1000000
        set r4, 16
        mul r0, r3, r4
        alloc r1, r0
        halt
