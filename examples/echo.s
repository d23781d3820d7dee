; prints its input, up to the end
        set r6, 1
again:  in r0
        add r1, r0, r6          ; 0 at the end
        set r2, done
        set r3, more
        cmov r2, r3, r1
        load r4, r2             ; r4 is 0: go on at the place in r2
more:   out r0
        set r2, again
        load r4, r2
done:   halt
