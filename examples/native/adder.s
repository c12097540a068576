# The code of ../adder.s, written by hand: the message is at -384(%rdi), the state at -128(%rdi).
.include "entry.inc"
    enter
    mov -384(%rdi), %r9         # ldxdw r3, [r1+0]
    mov -128(%rdi), %r10        # ldxdw r4, [r2+0]
    add %r9, %r10               # add r4, r3
    mov %r10, -128(%rdi)        # stxdw [r2+0], r4
    xor %eax, %eax              # mov r0, 0
    tell 6                      # exit
    ret
