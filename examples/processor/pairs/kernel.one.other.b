agree at b for 19 cycles
