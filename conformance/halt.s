; nothing behind a Halt is done
        set r0, 65
        out r0
        halt
        set r0, 66
        out r0
        halt
