; an Amendment of an array that never was, whose offset would be outside too
        nand r1, r6, r6
        amend r1, r1, r6
