# gives each message as an output
call 2
exit
