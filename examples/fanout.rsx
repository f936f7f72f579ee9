hub replay 2 2
subscribe (hub 0)
subscribe (map double (hub 0))
request 0 9
request 1 1
emit 0 1
emit 0 2
pump 100
emit 0 3
emit 0 4
pump 100
show 0
show 1
subscribe (hub 0)
joins 2
request 2 9
pump 100
show 2
emit 0 5
emit 0 6
request 1 9
pump 100
complete 0
pump 100
show 0
show 1
show 2
check 1
check 2
