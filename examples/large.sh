#!/bin/sh
# Writes a script of 500,000 lines, as many as one may have. Of each five lines two are puts, two lookups and one a
# delete. They go over 100,003 keys in an order that jumps about, so each key is met some five times.
exec awk 'BEGIN {
    for (line = 0; line < 500000; line++) {
        key = sprintf("key-%06d", line * 7919 % 100003)
        turn = line % 5
        if (turn < 2) print "0 put " key " =value-" line
        else if (turn < 4) print "0 get " key
        else print "0 del " key
    }
}'
