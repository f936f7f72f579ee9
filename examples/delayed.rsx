subscribe (mergeDelayError 4 (map inc (items 9223372036854775807)) (items 5 6))
show 0
request 0 9
pump 100
show 0
choices 0
check 0
hub multicast 8
hub multicast 8
subscribe (mergeDelayError 4 (hub 0) (hub 1))
emit 1 3
fail 1 8
request 1 9
pump 100
show 1
emit 0 1
fail 0 7
show 1
pump 100
show 1
choices 1
check 1
subscribe (flatMapDelayError twice 1 ((map inc)) (items 9223372036854775807 4))
request 2 9
pump 1000
show 2
choices 2
check 2
