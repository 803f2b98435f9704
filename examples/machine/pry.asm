ld 2
jz 3
halt
ldi 99
st 2
ld 0
add 1
sub 3
jz 10
halt
ld 2
halt
