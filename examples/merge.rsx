hub multicast 4
hub multicast 4
subscribe (merge 4 (hub 0) (hub 1))
emit 0 10
emit 1 20
emit 1 21
pump 100
show 0
request 0 2
pick 0 0 1
pick 0 0 1
pump 100
show 0
choices 0
check 0
complete 0
fail 1 7
request 0 9
pump 100
show 0
choices 0
check 0
pick 0 0 0
subscribe (merge 1 (map double (range 1 3)) (concat (items 7) (items 8 9)))
request 1 4
pump 100
show 1
choices 1
check 1
