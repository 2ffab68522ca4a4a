#!/usr/bin/env bash
# Installs the built program into a folder of its own and takes it away again.
#
#     tests/installed.sh
#
# The last line is 'N passed, M failed'.
set -u
cd "$(dirname "$0")/.." || exit 2
place=$(mktemp -d)
trap 'rm -rf "$place"' EXIT
passed=0 failed=0

# check NAME COMMAND..: counts whether a command succeeds.
check() {
    local name=$1
    shift
    if "$@" >"$place.told" 2>&1; then
        passed=$((passed + 1))
    else
        failed=$((failed + 1))
        echo "FAILED $name"
        cat "$place.told"
    fi
    rm -f "$place.told"
}

# files: what stands in the folder, each path below it.
files() {
    (cd "$place" && find . -type f -o -type l | sort)
}

wanted='./usr/bin/typetool
./usr/share/bash-completion/completions/typetool
./usr/share/fish/vendor_completions.d/typetool.fish
./usr/share/man/man1/typetool.1
./usr/share/zsh/site-functions/_typetool'
# -o: the program that is there is the one to install.
check 'install' make -s -o bin/typetool install DESTDIR="$place" PREFIX=/usr
check 'what is installed' test "$(files)" = "$wanted"
check 'the program' "$place/usr/bin/typetool" info examples/tour.script examples/tour.timing
check 'the page' grep -q "^.TH TYPETOOL 1 \"\" \"$(bin/typetool --version)\"" "$place/usr/share/man/man1/typetool.1"
check 'uninstall' make -s uninstall DESTDIR="$place" PREFIX=/usr
check 'what is left' test -z "$(files)"
echo "$passed passed, $failed failed"
[ "$failed" = 0 ]
