#!/usr/bin/env bash
# A page in Chromium: how long it takes to open, and to draw the next chunk and any chunk, of the largest shipped
# recording and of 20,000 chunks of a log in colour on 132 columns and 43 lines. A frame is told from the seek until the
# browser has laid it out and painted it, in the middle of 200; beside it the processor time of that thread. Where
# Debian's node-xterm is, so long takes xterm.js, which plays the bytes anew up to the moment as players of casts do.
# Needs git, python3 and chromium.
#
#     bench/page.sh [TYPETOOL]
set -euo pipefail
cd "$(dirname "$0")/.."
work=$(mktemp -d)
trap 'rm -rf "$work"' EXIT
python3 bench/page.py "$(realpath "${1:-bin/typetool}")" "$work"
