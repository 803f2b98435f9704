agree at b for 8 cycles
