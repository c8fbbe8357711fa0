#!/bin/sh
# Turns per second with N children that sleep once and then yield 20 times each, for N of 100, 1,000 and 10,000, or of the
# numbers that are given. Over the clock of the network in memory, so that no time goes by in waits.
# Run it from anywhere; it builds the program where that is needed.
top=$(CDPATH='' cd -- "$(dirname -- "$0")/.." && pwd) || exit 1
[ $# -gt 0 ] || set -- 100 1000 10000
script=$(mktemp) || exit 1
trap 'rm -f "$script"' EXIT
"$top/dillrelay" "$top/examples/hello.dill" >/dev/null || exit 1
echo "children turns seconds turns/s"
for children in "$@"; do
    cat >"$script" <<END
dill 1
program child 0
  msleep 1
  loop 20
  end
end
program main 0
  n0 = bundle
  loop $children
    bundle_go n0 child
  end
  bundle_wait n0 -1
end
END
    begun=$(date +%s%N)
    summary=$("$top/dillrelay" --net loop "$script") || { echo "$summary" >&2; exit 1; }
    ended=$(date +%s%N)
    turns=${summary#*turns=}
    turns=${turns%% *}
    awk -v n="$children" -v t="$turns" -v ns=$((ended - begun)) 'BEGIN { printf "%8d %8d %8.3f %10.0f\n", n, t, ns / 1e9, t * 1e9 / ns }'
done
