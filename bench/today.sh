#!/usr/bin/env bash
# Feeds 64 MiB of four kinds to `typetool screen --profile xterm` and to libvterm with UTF-8 on, and prints the processor
# time (user and system) of each and our time over libvterm's, and the instructions of both on 4 MiB. Needs cc, git,
# python3, valgrind and libvterm-dev.
#
#     bench/today.sh [TYPETOOL [MIB]]
#
# Each side reads the same two files and takes the same chunks; of three runs in turn the fastest counts.
set -euo pipefail
cd "$(dirname "$0")/.."
work=$(mktemp -d)
trap 'rm -rf "$work"' EXIT
read -ra flags < <(pkg-config --cflags --libs vterm)
cc -O2 -o "$work/libvterm_feed" bench/libvterm_feed.c "${flags[@]}"
python3 bench/today.py "${1:-bin/typetool}" "$work/libvterm_feed" "$work" "${2:-64}"
