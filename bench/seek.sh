#!/usr/bin/env bash
# Seeks in 64 MiB of recordings (80 bytes a chunk): first to the end, then to 2,000 places all over, by `typetool session`
# with a terminal stored at every 100 chunks; and the same by libtty's ttyrec_seek, where libtty-dev is installed. Prints
# processor times (user and system) and memory. Needs python3.
#
#     bench/seek.sh [TYPETOOL [MIB]]
set -euo pipefail
cd "$(dirname "$0")/.."
work=$(mktemp -d)
trap 'rm -rf "$work"' EXIT
libtty=
if [ -f /usr/include/ttyrec.h ]; then
    libtty=$work/libtty_seek
    cc -O2 -o "$libtty" bench/libtty_seek.c -ltty
fi
python3 bench/seek.py "${1:-bin/typetool}" "$work" "${2:-64}" "$libtty"
