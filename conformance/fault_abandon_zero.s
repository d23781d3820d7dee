; an Abandonment of array 0
        abandon r6
        halt
