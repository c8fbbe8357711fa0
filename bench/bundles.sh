#!/bin/sh
# Seconds of a run with N bundles: N made by `go`, side by side, and N nested, each in the one before. For N of 500, 1,000
# and 2,000, or the numbers that are given. Over the clock of the network in memory, so that no time goes by in waits.
# Run it from anywhere; it builds the program where that is needed.
top=$(CDPATH='' cd -- "$(dirname -- "$0")/.." && pwd) || exit 1
[ $# -gt 0 ] || set -- 500 1000 2000
script=$(mktemp) || exit 1
trap 'rm -f "$script"' EXIT
"$top/dillrelay" "$top/examples/hello.dill" >/dev/null || exit 1

# Runs the script and prints how it is called, how many bundles it has and how long it took.
time_it() {
    begun=$(date +%s%N)
    summary=$("$top/dillrelay" --net loop "$script") || { echo "$summary" >&2; exit 1; }
    ended=$(date +%s%N)
    awk -v kind="$1" -v n="$2" -v ns=$((ended - begun)) 'BEGIN { printf "%-6s %8d %8.3f\n", kind, n, ns / 1e9 }'
}

echo "kind    bundles  seconds"
for bundles in "$@"; do
    cat >"$script" <<END
dill 1
program child 0
  msleep -1
end
program main 0
  loop $bundles
    n0 = go child
  end
end
END
    time_it beside "$bundles"
    cat >"$script" <<END
dill 1
program child 1
  if n0 > 0
    sub n0 1
    n1 = go child n0
  end
  msleep -1
end
program main 0
  n0 = go child $bundles
  msleep 1
end
END
    time_it nested "$bundles"
done
