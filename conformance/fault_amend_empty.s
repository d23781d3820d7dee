; an Amendment of an array without words
        alloc r2, r6
        amend r2, r6, r6
