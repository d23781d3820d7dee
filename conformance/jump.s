; a Load of 0 moves the finger on, back, and to the next word
        set r1, third
        load r6, r1
first:  set r0, 98
        out r0
        set r1, next
        load r6, r1
next:   set r0, 99
        out r0
        halt
third:  set r0, 97
        out r0
        set r1, first
        load r6, r1
