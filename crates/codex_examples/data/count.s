; prints: 9876543210
        set r0, 57              ; the digit
        set r1, 10              ; how many digits are left
        nand r7, r7, r7         ; all ones: adding it takes 1 away
again:  out r0
        add r0, r0, r7
        add r1, r1, r7
        set r2, done
        set r3, again
        cmov r2, r3, r1         ; on with the loop unless r1 is 0
        load r4, r2
done:   set r0, 10
        out r0
        halt
