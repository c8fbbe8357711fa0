#!/bin/sh
# Messages over channels per second: a ring of N coroutines that pass one item of 16 bytes on, for N of 100 and of 1,000 or the
# numbers that are given, and a producer with 10 consumers that take from one end. Over the clock of the network in memory, so
# that no time goes by in waits. The rounds are those of the script; what making the ring takes is counted too.
# Run it from anywhere; it builds the program where that is needed.
top=$(CDPATH='' cd -- "$(dirname -- "$0")/.." && pwd) || exit 1
[ $# -gt 0 ] || set -- 100 1000
script=$(mktemp) || exit 1
trap 'rm -f "$script"' EXIT
"$top/dillrelay" "$top/examples/hello.dill" >/dev/null || exit 1

# Runs the script and prints how it is called, how many coroutines it has, how many messages went and how many a second.
time_it() {
    begun=$(date +%s%N)
    summary=$("$top/dillrelay" --net loop "$script") || { echo "$summary" >&2; exit 1; }
    ended=$(date +%s%N)
    awk -v kind="$1" -v n="$2" -v m="$3" -v ns=$((ended - begun)) 'BEGIN { printf "%-9s %10d %8d %8.3f %10.0f\n", kind, n, m, ns / 1e9, m * 1e9 / ns }'
}

echo "kind      coroutines messages  seconds messages/s"
for members in "$@"; do
    rounds=$((2000000 / (members * members)))
    [ "$rounds" -gt 0 ] || rounds=1
    cat >"$script" <<END
dill 1
program member 2            # where it receives, and where it sends
  loop
    try b0 = chrecv n0 16 -1
    if err EPIPE
      return
    end
    chsend n1 b0 -1
  end
end
program main 0
  n0 n1 = chmake
  n6 = bundle
  loop $members
    n2 n3 = chmake
    bundle_go n6 member give n1 give n2
    set n1 n3
  end
  loop $rounds
    chsend n0 "0123456789abcdef" -1
    b0 = chrecv n1 16 -1
  end
  hclose n6
end
END
    time_it ring "$members" $((rounds * (members + 1)))
done
cat >"$script" <<END
dill 1
program consumer 1          # where it receives
  loop
    try b0 = chrecv n0 16 -1
    if err EPIPE
      return
    end
  end
end
program main 0
  n0 n1 = chmake
  n6 = bundle
  loop 10
    bundle_go n6 consumer n1
  end
  loop 20000
    chsend n0 "0123456789abcdef" -1
  end
  chdone n0
  bundle_wait n6 -1
end
END
time_it consumers 10 20000
