# sends to process 1 what the outside hands in, and gives what a process sends as an output
mov r6, r1
call 4
jeq r0, 0, +3
mov r1, r6
call 2
exit
mov r2, r6
mov r1, 1
call 1
exit
