; there is no operator 15
        .hex ffffffff
