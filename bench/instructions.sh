#!/usr/bin/env bash
# Counts by callgrind the instructions of `typetool screen` and of libvterm on 8 MiB of three kinds, and prints our count
# over libvterm's. Needs cc, python3, valgrind and libvterm-dev.
#
#     bench/instructions.sh [TYPETOOL [MIB]]
#
# Both sides take the same chunks, as in feed.sh. Where times vary from hour to hour, these counts stay.
set -euo pipefail
cd "$(dirname "$0")/.."
work=$(mktemp -d)
trap 'rm -rf "$work"' EXIT
read -ra flags < <(pkg-config --cflags --libs vterm)
cc -O2 -o "$work/libvterm_feed" bench/libvterm_feed.c "${flags[@]}"
python3 bench/instructions.py "${1:-bin/typetool}" "$work/libvterm_feed" "$work" "${2:-8}"
