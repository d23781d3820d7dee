; there is no operator 14
        set r0, 65
        out r0
        .hex e0000000
