# The code of ../relay.s, written by hand. Of the record: sends at 0, me at 24, processes at 40, places of 272 bytes
# from 64 (destination, length, payload).
.include "entry.inc"
    keep_r2
    enter
    mov %r8, %r12               # mov r2, r1: a place, so its number is never used
    mov $2, %r8d                # mov r1, 2
    cmp $1, %r8                 # call 1: a peer is 1 to the number of processes, and not oneself
    jb no_peer
    mov 40(%rsi), %rcx
    cmp %r8, %rcx
    jb no_peer
    mov 24(%rsi), %rcx
    cmp %rcx, %r8
    je no_peer
    {disp8} mov (%rsi), %rcx
    cmp $8, %rcx                # eight sends are all
    jae no_room
    imul $272, %rcx, %rdx
    lea 64(%rsi,%rdx), %rdx     # the next send's place
    lea 1(%rcx), %rcx
    {disp8} mov %r8, (%rdx)
    movq $64, 8(%rdx)
    movups -384(%rdi), %xmm0
    movups %xmm0, 16(%rdx)
    movups -368(%rdi), %xmm0
    movups %xmm0, 32(%rdx)
    movups -352(%rdi), %xmm0
    movups %xmm0, 48(%rdx)
    movups -336(%rdi), %xmm0
    movups %xmm0, 64(%rdx)
    {disp8} mov %rcx, (%rsi)
    xor %eax, %eax
    jmp done
no_peer:
    mov $1, %eax
    jmp done
no_room:
    mov $2, %eax
done:
    tell 4                      # exit
    restore_r2
    ret
