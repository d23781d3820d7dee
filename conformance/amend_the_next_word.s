; an Amendment of the word that comes next counts already
        set r1, spot
        set r2, other
        index r3, r6, r2
        set r0, 110
        amend r6, r1, r3
spot:   out r0
        out r0
        halt
other:  set r0, 121
