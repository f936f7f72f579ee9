hub multicast 4
feed replay 1 2 (map double (hub 0))
subscribe (hub 1)
subscribe (buffer 2 (hub 1))
request 0 9
emit 0 1
emit 0 2
emit 0 3
pump 100
show 0
show 1
check 0
check 1
request 1 1
pump 100
check 0
check 1
subscribe (hub 1)
joins 2
request 2 9
emit 0 4
complete 0
pump 100
show 0
show 1
show 2
check 0
check 1
check 2
request 1 9
pump 100
show 1
check 1
