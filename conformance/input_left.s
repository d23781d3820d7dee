; a scroll that takes two bytes of a long input and halts
        in r0
        out r0
        in r0
        out r0
        halt
