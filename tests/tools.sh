#!/usr/bin/env bash
# Installs the packages of tests/packages.txt from the machine's own sources, and tells their versions.
#
#     tests/tools.sh
#
# Where it can't (no Debian, not root, no network) it prints the line to run. It never fails: a test that lacks its tool
# says so. No service is started by it.
set -u
cd "$(dirname "$0")" || exit
export DEBIAN_FRONTEND=noninteractive
mapfile -t packages <<<"$(sed -n 's/^\([a-z][^ ]*\).*/\1/p' packages.txt)"
install=(apt-get install --yes --no-install-recommends)
told=$(mktemp)
policy=/usr/sbin/policy-rc.d

# missing: those that aren't installed.
missing() {
    local package
    for package in "${packages[@]}"; do
        dpkg-query --show --showformat '${db:Status-Status}' "$package" 2>&1 | grep -qx installed || echo "$package"
    done
}

# try_all: three tries to install what is missing; then each by itself, since a source may lack one of them.
try_all() {
    local try package
    for try in 1 2 3; do
        # shellcheck disable=SC2046
        if apt-get update >"$told" 2>&1 && "${install[@]}" $(missing) >>"$told" 2>&1; then return; fi
        echo "tools: try $try of 3 failed: $(grep '^E:' "$told" | tail -n 1)"
        sleep $((try * 2))
    done
    for package in $(missing); do "${install[@]}" "$package" >"$told" 2>&1; done
}

if ! command -v apt-get dpkg-query >/dev/null; then
    echo "tools: without apt-get, install by hand what these Debian packages hold: ${packages[*]}"
    exit 0
fi
if [ -n "$(missing)" ] && [ "$(id -u)" = 0 ]; then
    # Servers are started by the tests alone.
    if [ ! -e $policy ]; then
        printf '#!/bin/sh\nexit 101\n' >$policy
        chmod +x $policy
        trap 'rm -f $policy "$told"' EXIT
    fi
    try_all
fi
dpkg-query --show --showformat 'tools: ${Package} ${Version}\n' "${packages[@]}" 2>/dev/null
lacking=$(missing)
if [ -n "$lacking" ]; then
    echo "tools: missing, and skipped by the tests: ${lacking//$'\n'/ }"
    echo "tools: as root: apt-get update && ${install[*]} ${lacking//$'\n'/ }"
fi
rm -f "$told"
