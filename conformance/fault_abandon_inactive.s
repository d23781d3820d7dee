; an Abandonment of an array that never was
        set r1, 1
        abandon r1
