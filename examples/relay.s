# sends each message on to process 2
mov r2, r1
mov r1, 2
call 1
exit
