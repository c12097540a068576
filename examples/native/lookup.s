# The code of lookup.sbi, of form 3, written by hand: r1 is a position in the array, and r10 - 8 is 1,016.
.include "entry.inc"
    keep_r2
    enter
    place
    and $255, %r9               # and r3, 255
    add %r9, %r8                # add r1, r3
    lea -384(%rdi,%r8), %rdx    # ldxb r0, [r1+0]
    {disp8} movzbl (%rdx), %eax
    mov %r8, 632(%rdi)          # stxdw [r10-8], r1
    tell 5                      # exit
    restore_r2
    ret
