; an Output of the 2^32 - 1 that an Input gave at the end
        in r0
        out r0
        halt
