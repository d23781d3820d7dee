; prints: Hello
        set r0, 72
        out r0
        set r0, 101
        out r0
        set r0, 108
        out r0
        out r0
        set r0, 111
        out r0
        set r0, 10
        out r0
        halt
