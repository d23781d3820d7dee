; the words end without a Halt
        set r0, 65
        out r0
