#!/bin/sh
# Times the readers on buffers that grow byte by byte: bytes per second by kind and size of message.
top=$(CDPATH='' cd -- "$(dirname -- "$0")/.." && pwd) || exit 1
(cd "$top/crates/codec_bench" && rt run) >/dev/null || exit 1
program=$top/crates/codec_bench/out/codec_bench
for case in "prefix 4096 20000" "prefix 1048576 100" "frame 4096 20000" "frame 1048576 100" "line 4096 200" "line 8192 100" "suffix 4096 200"; do
    set -- $case
    begin=$(date +%s%N)
    "$program" "$@" || exit 1
    end=$(date +%s%N)
    echo "$1 $2: $(($2 * $3 * 1000000000 / (end - begin))) bytes per second"
done
