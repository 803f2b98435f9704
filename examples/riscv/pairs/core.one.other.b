streams: cycle 5 input code_b
