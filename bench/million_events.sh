#!/bin/sh
# Writes a trace of format 2 with as many events as the first argument says, a million without one, of four subscribers
# on four workers. No rule is broken in it. The text is for measuring how fast a trace is read and judged:
#
#     sh bench/million_events.sh > trace.txt
exec awk -v events="${1:-1000000}" 'BEGIN {
    print "trace 2"
    for (s = 0; s < 4 && written + 3 <= events; s++) {
        print s " subscribe " s
        print s " on-subscribe " s
        print s " exit " s
        written += 3
    }
    for (s = 0; written < events; s = (s + 1) % 4) {
        print s " request " s " 1"
        if (++written < events) { print s " next " s; written++ }
        if (written < events) { print s " exit " s; written++ }
    }
    print "end"
}'
