#!/usr/bin/env bash
# Feeds 64 MiB of three kinds to `typetool screen` and to libvterm, and prints the processor time (user and system) of
# each and our time over libvterm's. Needs cc, python3 and libvterm-dev.
#
#     bench/feed.sh [TYPETOOL [MIB]]
#
# Each side reads the same two files and takes the same chunks; of three runs in turn the fastest counts.
set -euo pipefail
cd "$(dirname "$0")/.."
work=$(mktemp -d)
trap 'rm -rf "$work"' EXIT
read -ra flags < <(pkg-config --cflags --libs vterm)
cc -O2 -o "$work/libvterm_feed" bench/libvterm_feed.c "${flags[@]}"
python3 bench/feed.py "${1:-bin/typetool}" "$work/libvterm_feed" "$work" "${2:-64}"
