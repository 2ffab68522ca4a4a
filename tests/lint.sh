#!/usr/bin/env bash
# Looks over the shell, the Python, the JavaScript and the layout of all crates.
#
#     tests/lint.sh
#
# It takes Debian's shellcheck, flake8, black and eslint (`make tools`), and rt. The last line is 'N passed, M failed'.
set -u
cd "$(dirname "$0")/.." || exit 2
. tests/skip.sh
shell=(tests/*.sh bench/*.sh completions/typetool.bash .ci/run)
python=(tests/*.py bench/*.py examples/*.py assets/*.py)
passed=0 failed=0

# look NAME COMMAND..: runs a linter, which answers 0 where all is well.
look() {
    local name=$1
    shift
    if lacks "$1" "$name"; then return; fi
    if "$@"; then
        passed=$((passed + 1))
    else
        failed=$((failed + 1))
        echo "FAILED lint: $name"
    fi
}

# layout CRATE..: whether rt fmt would leave each crate as it is. It works on copies of the sources.
layout() {
    local place crate out
    place=$(mktemp -d)
    out=0
    mkdir "$place/crates"
    cp crates.txt "$place"
    for crate in "$@"; do
        mkdir -p "$place/$crate"
        (cd "$crate" && tar -c --exclude=./out .) | tar -x -C "$place/$crate"
        (cd "$place/$crate" && rt fmt >"$place/told" 2>&1) || { cat "$place/told"; out=1; }
        diff -r --exclude=out "$crate" "$place/$crate" || out=1
    done
    rm -rf "$place"
    return $out
}

look 'the shell' shellcheck "${shell[@]}"
look 'the Python' flake8 --max-line-length 120 --extend-ignore E203 "${python[@]}"
# Another edition of black lays out otherwise, and says so without an opinion on the files.
if command -v black >/dev/null && ! black --version | grep -q '^black, 23'; then
    skip 'the layout of the Python' "Debian 12's black 23.1"
else
    look 'the layout of the Python' black --quiet --check --diff --line-length 120 "${python[@]}"
fi
# Debian's eslint finds what it stands on there, whichever node comes first.
export NODE_PATH=/usr/share/nodejs
look 'the JavaScript' eslint assets/outlines.js assets/page.js
if ! lacks rt 'the layout of the crates'; then
    if layout crates/*; then passed=$((passed + 1)); else failed=$((failed + 1)); fi
fi
end $passed $failed
