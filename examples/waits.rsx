hub multicast 2
subscribe (zip 4 (range 1 3) (hub 0))
pump 100
why 0
request 0 3
why 0
pump 100
why 0
emit 0 7
why 0
pump 100
show 0
why 0
subscribe (hub 0)
emit 0 8
emit 0 9
pump 100
why 0
why 1
emit 0 10
subscribe (hub 0)
request 2 5
pump 100
why 2
cancel 1
why 2
pump 100
why 1
show 2
why 2
