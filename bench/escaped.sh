#!/usr/bin/env bash
# The escaped print over the plain one, and the state text over the escaped print, in instructions as valgrind counts them,
# at moments of the shipped recording: what `screen` takes beyond `reports` at the same moment, which reads and feeds the
# same and prints a line. Usage: bench/escaped.sh [PROGRAM]
set -euo pipefail
here=$(realpath "$(dirname "$0")")
program=$(realpath "${1:-$here/../bin/typetool}")

# count COMMAND..: the instructions of a run.
count() {
    valgrind --tool=callgrind --callgrind-out-file=/dev/null "$program" "$@" "$here/../examples/tour.script" \
        "$here/../examples/tour.timing" 2>&1 >/dev/null | sed -n 's/.*Collected : //p'
}

for at in 0 5 10.26 14; do
    base=$(count reports --at $at)
    plain=$(($(count screen --at $at) - base))
    escaped=$(($(count screen --escaped --at $at) - base))
    state=$(($(count screen --state --at $at) - base))
    python3 "$here/shared.py" figure "escaped over plain at $at" $escaped $plain 3
    python3 "$here/shared.py" figure "state over escaped at $at" $state $escaped 2
done
