ldi 1
st 0
add 0
jmp 2
