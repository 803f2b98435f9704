streams: cycle 1 input a_asks
