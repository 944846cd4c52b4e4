; Sends what jumps here back to the address in R3.
        JMP32a R3
