#!/usr/bin/env bash
# An archive: recordings a second and MB a second on one core and on all, for `find` of a text that stands nowhere, `check`
# and `screen --at`, beside `grep -a` over the same typescripts, which sees bytes and not screens. xargs starts every
# process itself. First 2,000 recordings of 10 KB, where starting the program decides, then 200 of 1 MB.
#
#     bench/archive.sh [PROGRAM]
set -euo pipefail
here=$(realpath "$(dirname "$0")")
program=$(realpath "${1:-$here/../bin/typetool}")
cores=$(nproc)
place=$(mktemp -d)
trap 'rm -rf "$place"' EXIT
cd "$place"

# archive NAME COUNT BYTES: so many copies of a recording, and the lists of their files.
archive() {
    local number
    mkdir "$1"
    python3 "$here/shared.py" shipped "$1" 0 "$3" 80
    for ((number = 1; number < $2; number++)); do
        cp "$1/0.script" "$1/$number.script"
        cp "$1/0.timing" "$1/$number.timing"
    done
    printf '%s\0' "$1"/*.script >"$1.scripts"
    sed -z 'p; s/script$/timing/' "$1.scripts" >"$1.pairs"
}

# ask ARCHIVE CORES FILES COMMAND..: asks each recording of an archive by a process of its own.
ask() {
    local list=$1.pairs
    if [ "$3" = 1 ]; then list=$1.scripts; fi
    xargs -0 -n "$3" -P "$2" -a "$list" "${@:4}" >out.txt || [ $? = 123 ]
}

# took ARCHIVE CORES FILES COMMAND..: the least seconds of three runs, and of user and system.
took() {
    local TIMEFORMAT='%R %U %S'
    for _ in 1 2 3; do { time ask "$@"; } 2>&1; done | awk '
        NR == 1 || $1 < real { real = $1 }
        NR == 1 || $2 + $3 < spent { spent = $2 + $3 }
        END { print real, spent }'
}

# compare ARCHIVE COUNT BYTES NAME FILES COMMAND..: one core and all; leaves the seconds in one, all and spent.
compare() {
    read -r one spent < <(took "$1" 1 "${@:5}")
    read -r all _ < <(took "$1" "$cores" "${@:5}")
    awk -v name="$4" -v count="$2" -v bytes="$3" -v one="$one" -v all="$all" -v spent="$spent" -v cores="$cores" 'BEGIN {
        printf "%-8s one core %7.0f a second %8.1f MB/s   %d cores %7.0f a second %8.1f MB/s   %7.3f ms of processor each\n",
            name, count / one, count * bytes / one / 1e6, cores, count / all, count * bytes / all / 1e6, spent * 1000 / count
    }'
}

# scaled NAME GOAL: how the time on all cores is to that on one.
scaled() {
    python3 "$here/shared.py" figure "$1: all cores over one" "$all" "$one" "$2"
}

for size in 10000 1000000; do
    count=$((size < 100000 ? 2000 : 200)) goal=$([ $size = 10000 ] && echo 0.4167 || echo 0.3333)
    name="recordings of $((size / 1000)) KB"
    echo "$count $name"
    archive "$size" $count $size
    compare "$size" $count $size find 2 "$program" find 'stands nowhere'
    find_spent=$spent
    scaled "find, $name" "$goal"
    compare "$size" $count $size check 2 "$program" check
    compare "$size" $count $size screen 2 "$program" screen --at 1000000
    compare "$size" $count $size grep 1 grep -a 'stands nowhere'
    if [ $size = 10000 ]; then python3 "$here/shared.py" figure "find over grep -a" "$find_spent" "$spent" 1; fi
done
