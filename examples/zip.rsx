hub replay 4 4
hub replay 4 4
subscribe (zip 4 (hub 0) (hub 1))
subscribe (combineLatest 4 (hub 0) (hub 1))
request 0 9
request 1 9
emit 0 1
emit 0 2
pump 100
emit 1 5
pump 100
show 0
choices 0
show 1
choices 1
emit 1 6
fail 1 7
pump 100
complete 0
pump 100
show 0
choices 0
check 0
show 1
choices 1
check 1
subscribe (zip 4 (hub 0) (hub 1))
request 2 9
pump 100
show 2
choices 2
check 2
