; a Halt, an Output, an Input, an Abandonment and an Allocation look at no register but their own
        set r1, 2
        alloc r2, r1
        set r3, 65
        .hex a00001db           ; out r3, with A r7 and B r3
        .hex b00000d4           ; in r4, with A r3 and B r2
        out r3
        out r4
        nand r7, r6, r6
        .hex 900001fa           ; abandon r2, with A and B r7
        .hex 800001e9           ; alloc r5, r1, with A r7
        .hex 700001ff           ; halt, with all three r7
        out r3
