#!/bin/sh
# Times the parts of links, each called by hand: the least link that is due of many, connects with an echo over the
# network in memory and over real sockets, and messages through two stacks in pieces of 4,096 bytes: behind a length of
# four bytes, before a terminator of two, and as masked text frames. Each message takes room that is made for it alone.
top=$(CDPATH='' cd -- "$(dirname -- "$0")/.." && pwd) || exit 1
(cd "$top/crates/link_bench" && rt run) >/dev/null || exit 1
program=$top/crates/link_bench/out/link_bench
for case in "due 64 1000000" "due 4096 20000" "loop 16 200000" "loop 65536 20000" "mio 16 2000" "mio 65536 500"; do
    set -- $case
    begin=$(date +%s%N)
    "$program" "$@" || exit 1
    end=$(date +%s%N)
    echo "$1 $2: $(($3 * 1000000000 / (end - begin))) per second"
done
for case in "prefix 16 4000000" "prefix 65536 40000" "suffix 16 2000000" "suffix 65536 500" "ws 16 2000000" "ws 65536 4000"; do
    set -- $case
    begin=$(date +%s%N)
    "$program" "$@" || exit 1
    end=$(date +%s%N)
    echo "$1 $2: $(($3 * 1000000000 / (end - begin))) messages per second, $(($2 * $3 * 1000 / (end - begin))) MB/s"
done
