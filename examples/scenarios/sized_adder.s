# adds the word of each message that has one to the state
jlt r3, 8, +4
ldxdw r4, [r1+0]
ldxdw r5, [r2+0]
add r5, r4
stxdw [r2+0], r5
mov r0, 0
exit
