# shellcheck shell=bash
# How a script says that it lacks a tool; skip.py is the same for Python. Each such line begins with `skipped: `, and the
# script ends with status 77 where nothing failed: tests/run.py gathers them.
skipped=0

# lacks TOOL WHAT: whether there is no such command; then WHAT is skipped.
lacks() {
    command -v "$1" >/dev/null && return 1
    skip "$2" "$1"
}

# skip WHAT TOOL: tells that WHAT is skipped.
skip() {
    echo "skipped: $(basename "$0"): $1, for want of $2"
    skipped=$((skipped + 1))
}

# end PASSED FAILED: a script's last line and its status.
end() {
    echo "$(basename "$0"): $1 passed, $2 failed$([ $skipped = 0 ] || echo ", $skipped skipped")"
    if [ "$2" != 0 ] || [ $(($1 + skipped)) = 0 ]; then exit 1; fi
    if [ $skipped != 0 ]; then exit 77; fi
    exit 0
}
