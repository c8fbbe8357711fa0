#!/bin/sh
# Runs the whole gate from nothing, and prints for each crate the processor seconds of its proof, of the proof of its tests
# and of its must-fail edits, the most expensive crate first. What the gate says goes to the file that is named, or to
# gate.log in the current folder. Ends with the gate's status.
log=${1:-gate.log}
log=$(cd -- "$(dirname -- "$log")" && pwd)/$(basename -- "$log")
cd -- "$(dirname -- "$0")/.." || exit 1
rt ci --anew >"$log" 2>&1 </dev/null &
gate=$!
python3 bench/gate.py "$gate"
wait "$gate"
status=$?
tail -n 1 "$log"
exit "$status"
