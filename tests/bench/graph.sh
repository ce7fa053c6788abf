#!/bin/sh
# graph.sh text|ninja KIND [N]: a graph of N services (4096 without N) as a database text, whose bundle `all` has all of
# them, or as a file for ninja, in which what a service needs is what its target is built from. KIND is
#   none    none needs another
#   next    a chain: each needs the next by name
#   before  a chain: each needs the one before
#   shuffled  a chain in an order of its own, the same one each time
#   fan     the first needs all others
#   layers  layers of 64, each service needing the whole layer before
#   random  each needs about 4 others, the same ones each time
set -eu
form=$1
kind=$2
count=${3:-4096}
awk -v form="$form" -v kind="$kind" -v count="$count" '
    function name(i) { return "s" (1000 + i) }
    # A number below a bound, by a linear congruence that fits in what awk counts with.
    function draw(bound) { seed = (seed * 16807) % 2147483647; return seed % bound }
    # What a service needs, ascending, with a space before each.
    function needs(i,    words, first, j, k) {
        words = ""
        if (kind == "next" && i + 1 < count) words = " " name(i + 1)
        if (kind == "before" && i > 0) words = " " name(i - 1)
        if (kind == "shuffled" && rank[i] > 0) words = " " name(below[rank[i]])
        if (kind == "fan" && i == 0) for (j = 1; j < count; j++) words = words " " name(j)
        if (kind == "layers" && i >= 64) {
            first = int(i / 64) * 64 - 64
            for (j = first; j < first + 64; j++) words = words " " name(j)
        }
        if (kind == "random") for (k = 0; k < many[i]; k++) words = words " " name(drawn[i, k])
        return words
    }
    # Each service has a rank of its own, and needs services of lower ranks alone; in a chain, the one below it.
    function draw_needs(    i, j, k) {
        seed = 20261123
        for (i = 0; i < count; i++) rank[i] = i
        for (i = count - 1; i > 0; i--) { j = draw(i + 1); k = rank[i]; rank[i] = rank[j]; rank[j] = k }
        for (i = 0; i < count; i++) below[rank[i] + 1] = i
        if (kind == "random") for (i = 0; i < count; i++) for (k = 0; k < 8; k++) {
            j = draw(count)
            if (rank[j] < rank[i]) put(i, j)
        }
    }
    # Puts a need among those of a service, which ascend.
    function put(i, j,    k, place) {
        for (place = 0; place < many[i] && drawn[i, place] < j; place++);
        if (place < many[i] && drawn[i, place] == j) return
        for (k = many[i]++; k > place; k--) drawn[i, k] = drawn[i, k - 1]
        drawn[i, place] = j
    }
    BEGIN {
        if (kind !~ /^(none|next|before|shuffled|fan|layers|random)$/ || form !~ /^(text|ninja)$/) exit 2
        if (kind ~ /^(shuffled|random)$/) draw_needs()
        if (form == "ninja") {
            print "rule up\n  command = true"
            for (i = 0; i < count; i++) print "build " name(i) ": up" needs(i)
            exit
        }
        print "undorc-db 1\nservices " count
        for (i = 0; i < count; i++) print "service " name(i) " longrun plain 0 0\nneeds" needs(i) "\nproducer -"
        printf "bundles 1\nbundle all"
        for (i = 0; i < count; i++) printf " %s", name(i)
        print "\nend"
    }'
