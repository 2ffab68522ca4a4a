#!/usr/bin/env bash
# What tests/run.py makes of scripts that pass, fail, lack a tool, or aren't there.
#
#     tests/runs.sh
#
# The last line is 'N passed, M failed'.
set -u -o pipefail
cd "$(dirname "$0")/.." || exit 2
. tests/skip.sh
passed=0 failed=0

# check NAME STATUS TOLD WORD..: compares the status of run.py and what it prints, its lines with times left out.
check() {
    local name=$1 wanted="$3, status $2" told
    shift 3
    told=$(tests/run.py "$@" 2>&1 | grep -v '^-- ')
    told+=", status $?"
    if [ "$told" = "$wanted" ]; then
        passed=$((passed + 1))
    else
        failed=$((failed + 1))
        printf 'FAILED %s: %s\nwanted: %s\n' "$name" "$told" "$wanted"
    fi
}

lacks="sh -c 'echo skipped: a for want of b; exit 77'"
check 'all pass' 0 '2 passed, 0 failed, 0 skipped' true true
check 'what a script prints' 0 $'a\n1 passed, 0 failed, 0 skipped' 'echo a'
check 'one fails' 1 $'FAILED false: status 1\n2 passed, 1 failed, 0 skipped' true false true
check 'none is begun behind one that failed' 1 $'FAILED false: status 1\nnot begun: true\n0 passed, 1 failed, 0 skipped' false -- true
check 'one lacks a tool' 0 $'skipped: a for want of b\nskipped: a for want of b\n1 passed, 0 failed, 1 skipped' "$lacks" -- true
check 'one lacks a tool and does not say so' 1 $'FAILED sh -c "exit 77": status 77\n0 passed, 1 failed, 0 skipped' 'sh -c "exit 77"'
check 'one fails and lacks a tool' 1 $'skipped: a\nskipped: a\nFAILED sh -c "echo skipped: a; exit 1": status 1\n0 passed, 1 failed, 0 skipped' \
    'sh -c "echo skipped: a; exit 1"'
check 'there is no such script' 1 $'FAILED tests/nowhere: status 127\n0 passed, 1 failed, 0 skipped' tests/nowhere
check 'one is ended by a signal' 1 $'FAILED sh -c "kill -9 $$": status -9\n0 passed, 1 failed, 0 skipped' 'sh -c "kill -9 $$"'
end $passed $failed
