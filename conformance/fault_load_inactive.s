; a Load of an array that never was
        set r1, 1
        load r1, r6
