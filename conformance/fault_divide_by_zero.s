; a Division of 0 by 0
        set r0, 9
        div r0, r6, r6
