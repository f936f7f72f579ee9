hub multicast 8
subscribe (publishOnEager 0 4 (hub 0))
emit 0 1
request 0 1
pump 100
emit 0 2
fail 0 7
pump 100
show 0
choices 0
check 0
subscribe (publishOnEager 1 4 (map inc (items 1 2 9223372036854775807)))
show 1
pump 100
show 1
choices 1
check 1
