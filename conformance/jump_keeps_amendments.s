; a Load of 0 leaves array 0 as it was amended
        set r1, spot
        set r2, other
        index r3, r6, r2
        amend r6, r1, r3
        set r1, go
        load r6, r1
        halt
go:     set r0, 110
spot:   halt
        out r0
        halt
other:  set r0, 121
