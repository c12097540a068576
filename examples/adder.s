# adds the word of each message to the state
ldxdw r3, [r1+0]
ldxdw r4, [r2+0]
add r4, r3
stxdw [r2+0], r4
mov r0, 0
exit
