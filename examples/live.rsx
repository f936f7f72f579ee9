subscribe (buffer 10 (merge 8 (publishOn 1 8 (filter even (range 1 500))) (publishOn 0 8 (range 501 500))))
request 0 9223372036854775807
live 0
live 1
live 17
live 2
subscribe (publishOn 1 4 (range 1 3))
take 0 76
close
check 0
pump 100000
count 0
check 0
hub multicast 1
subscribe (hub 0)
emit 0 1
pump 100
emit 0 2
live 2
emit 0 3
emit 0 4
complete 0
emit 0 5
close
live 2
show 1
request 1 9
pump 1
show 1
pump 100
show 1
check 1
hub multicast 4
live 2
subscribe (hub 1)
emit 1 5
request 2 9
take 2 1
close
pump 1000
check 2
subscribe (publishOn 1 4 (map double (range 1 9)))
subscribe (publishOn 1 4 (range 1 9))
request 3 4
live 2
take 3 2
request 4 1
take 4 5
request 3 0
take 3 5
cancel 4
take 9 1
request 9 1
close
show 3
check 3
show 4
check 4
live 2
take 4 1
close
