; an Amendment of the word that it is itself: in this cycle it is an Amendment still, at the next
; visit it is what was written
        set r1, here
        set r2, other
        index r3, r6, r2
        set r0, 97
here:   amend r6, r1, r3
        out r0
        set r0, 98
        load r6, r1             ; to that word again, which is a Halt now
other:  halt
