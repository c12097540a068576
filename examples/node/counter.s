# adds the word of each message to the state, and gives the sum as an output
ldxdw r3, [r1+0]
ldxdw r4, [r2+0]
add r4, r3
stxdw [r2+0], r4
stxdw [r10-64], r4
mov r1, r10
add r1, -64
call 2
exit
