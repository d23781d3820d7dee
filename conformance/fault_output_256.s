; an Output of 256, after one of 255
        set r0, 255
        out r0
        set r0, 256
        out r0
