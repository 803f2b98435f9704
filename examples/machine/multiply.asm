ldi 14
st 0
ldi 3
st 1
ldi 1
st 3
ld 2
add 0
st 2
ld 1
sub 3
st 1
jz 14
jmp 6
ld 2
halt
