# The code of sums.sbi, of form 1, written by hand: a register's copy and a number that is added to it are one instruction,
# but where a jump leads to the second of the two.
.include "entry.inc"
    keep_r2
    enter
    mov -384(%rdi), %rax        # ldxdw r0, [r1+0]
    lea 200(%rax), %r9          # mov r3, r0; add r3, 200
    lea -8(%rax), %r12          # mov r2, r0; add r2, -8
    cmp $0, %rax                # jeq r0, 0, more
    je more
    mov %r9, %r12               # mov r2, r3
    lea 1(%r11), %r11           # who jumps to `more` has done one step less
more:
    add $1, %r12                # more: add r2, 1
    lea 5(%r12), %rax           # mov r0, r2; add r0, 5
    tell 10                     # exit
    restore_r2
    ret
