hub multicast 4
feed multicast 2 (map double (hub 0))
feed multicast 2 (hub 1)
subscribe (hub 2)
request 0 9
pump 100
why 0
why feed 2
why feed 1
why feed 0
emit 0 1
why feed 1
pump 100
show 0
why feed 1
subscribe (hub 2)
emit 0 2
emit 0 3
emit 0 4
pump 100
why 0
why feed 2
why feed 1
cancel 1
why feed 2
pump 100
show 0
complete 0
pump 100
why 0
why feed 2
