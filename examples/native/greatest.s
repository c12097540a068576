# The code of ../greatest.s, written by hand: the message is at -384(%rdi), the state at -128(%rdi).
.include "entry.inc"
    enter
    mov -384(%rdi), %r9         # ldxdw r3, [r1+0]
    mov -128(%rdi), %r10        # ldxdw r4, [r2+0]
    cmp %r10, %r9               # jle r3, r4, +1
    jbe less
    mov %r9, -128(%rdi)         # stxdw [r2+0], r3
    lea 1(%r11), %r11           # the step of the store, which the jump leaves out
less:
    xor %eax, %eax              # mov r0, 0
    tell 5                      # exit
    ret
