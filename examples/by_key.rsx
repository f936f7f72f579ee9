hub multicast 8
subscribe (groupBy mod3 ((scan add 0)) (hub 0))
subscribe (groupBy mod3 ((take 1)) (hub 0))
request 0 4
request 1 9
emit 0 4
emit 0 2
emit 0 7
pump 1000
show 0
choices 0
show 1
request 0 9
emit 0 5
complete 0
pump 1000
show 0
show 1
choices 1
check 0
check 1
