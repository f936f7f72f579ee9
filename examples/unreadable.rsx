subscribe (range 1 3)
request 0 1
pump 100

show 0
request 0 some
show 0
