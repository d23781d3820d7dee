; a Load of 0 past the end is no fault, the cycle after it is
        set r0, 65
        out r0
        load r6, r0
