; a Load of an array without words is no fault, the cycle after it is
        alloc r1, r0
        load r1, r0
