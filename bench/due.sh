#!/usr/bin/env bash
# Processor time (user and system) of `typetool due` at the end of 64 MiB of recordings and of program text,
# over that of scriptreplay, which writes the same bytes as fast as it can; of five runs in turn the fastest counts.
# Needs python3.
#
#     bench/due.sh [TYPETOOL [MIB]]
set -euo pipefail
cd "$(dirname "$0")/.."
work=$(mktemp -d)
trap 'rm -rf "$work"' EXIT
python3 bench/due.py "${1:-bin/typetool}" "$work" "${2:-64}"
