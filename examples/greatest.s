# keeps the greatest word that it was sent
ldxdw r3, [r1+0]
ldxdw r4, [r2+0]
jle r3, r4, +1
stxdw [r2+0], r3
mov r0, 0
exit
