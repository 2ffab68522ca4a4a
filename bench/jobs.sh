#!/usr/bin/env bash
# Processor times of the jobs on 64 MiB of the shipped recordings in chunks of 80 bytes, each over another job's on the
# same pair: `changes` over the whole recording over `screen` at its end, `find` over `changes` for a text that never
# stands there and for one that comes and goes, `picture`, `transcript` and `check` over `screen`, `page` and `cast` over
# `changes`, `info` over reading the pair (`due` at a moment before its first chunk), `save` without edits over `due` at
# the end, `screen` at the end over a session that stores no terminals, `screen --state` over `screen --escaped`, and `cut`
# of a stretch over `screen` at its end and `save` together. Last it counts what `import` takes, and `find`
# where its text stands often, which takes valgrind. Usage: bench/jobs.sh [PROGRAM]
set -euo pipefail
here=$(realpath "$(dirname "$0")")
program=$(realpath "${1:-$here/../bin/typetool}")
place=$(mktemp -d)
trap 'rm -rf "$place"' EXIT
cd "$place"
python3 "$here/shared.py" shipped . big 67108864 80
echo 'screen 1000000000' >end.requests
end=(--at 1000000000 big.script big.timing)

# measure NAME REQUESTS COMMAND..: adds the user and system seconds of a run on these requests to NAME.txt.
measure() {
    python3 "$here/shared.py" measure "$2" out.bin "${@:3}" >>"$1.txt"
}

# The least of five runs each, in turn, so that other work on the machine counts little.
for _ in 1 2 3 4 5; do
    measure read end.requests "$program" due --at 0 big.script big.timing
    measure due end.requests "$program" due "${end[@]}"
    measure info end.requests "$program" info big.script big.timing
    measure screen end.requests "$program" screen "${end[@]}"
    measure feed end.requests "$program" session --every 1000000 big.script big.timing
    measure changes end.requests "$program" changes --to 1000000000 big.script big.timing
    # It ends with 1, since the text stands nowhere.
    # shellcheck disable=SC2016
    measure find_none end.requests sh -c '"$0" find nowhere big.script big.timing || [ $? -eq 1 ]' "$program"
    measure find_some end.requests "$program" find 'Seek to' big.script big.timing
    measure picture end.requests "$program" picture "${end[@]}"
    measure transcript end.requests "$program" transcript big.script big.timing
    measure page end.requests "$program" page big.script big.timing
    measure cast end.requests "$program" cast big.script big.timing
    # It ends with 1, since it notes sequences that nothing plays, and with nothing else.
    # shellcheck disable=SC2016
    measure check end.requests sh -c '"$0" check big.script big.timing || [ $? -eq 1 ]' "$program"
    measure escaped end.requests "$program" screen --escaped "${end[@]}"
    measure state end.requests "$program" screen --state "${end[@]}"
    measure save /dev/null "$program" save big.script big.timing new.script new.timing
    rm -f new.script new.timing
    measure stretch end.requests "$program" screen --at 40 big.script big.timing
    measure cut /dev/null "$program" cut --from 10 --to 40 big.script big.timing new.script new.timing
    rm -f new.script new.timing
done

# least NAME: the least time of a job.
least() {
    cut -d' ' -f1 "$1.txt" | sort -g | head -n 1
}

# ratio ONE OTHER GOAL: the least time of one over that of the other.
ratio() {
    python3 "$here/shared.py" figure "$1 over $2" "$(least "$1")" "$(least "$2")" "$3"
}
ratio changes screen 1.25
ratio find_none changes 1.5
ratio find_some changes 1.5
ratio picture screen 1.05
ratio transcript screen 2
ratio page changes 2.5
ratio cast changes 2.5
ratio check screen 1
ratio info read 1.1
ratio save due 1.5
ratio screen feed 1.1
ratio state escaped 2
both=$(awk "BEGIN { print $(least stretch) + $(least save) }")
python3 "$here/shared.py" figure 'cut over screen and save' "$(least cut)" "$both" 1.2
# Recordings of other makers, in instructions.
python3 "$here/imports.py" "$program"
# Where the text stands often: instructions over those of `screen`, and how much more twice the input takes.
python3 "$here/../tests/linear.py" "$program" find
