#!/usr/bin/env bash
# Prints what memory `typetool` takes at most, beside the sizes of its files: for `due` at the end of 64 MiB of recordings
# (80 bytes a chunk) and of a body of 1 GiB in chunks of 1 MiB, and for the terminals that a session stores. Needs python3.
#
#     bench/memory.sh [TYPETOOL]
set -euo pipefail
cd "$(dirname "$0")/.."
work=$(mktemp -d)
trap 'rm -rf "$work"' EXIT
python3 bench/memory.py "${1:-bin/typetool}" "$work"
