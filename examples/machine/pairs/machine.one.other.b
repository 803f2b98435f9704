agree at b for 137 cycles
