# Where an owner's program begins: the stack is set to the end of its memory, and where main returns the owner halts.
.section .start, "ax"
.globl _start
_start:
  lui sp, 4
  call main
  lui t0, 16
  sw zero, 4(t0)
