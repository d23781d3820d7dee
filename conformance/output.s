; an Output of one byte, and a Halt
        set r0, 65
        out r0
        halt
