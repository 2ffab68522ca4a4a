#!/usr/bin/env bash
# Times `typetool screen --profile xterm` on streams of 1 MiB of one sequence each, over 256 KiB of it, on 200 columns and
# 50 lines; streams that take less than 0.05 seconds aren't told. Needs python3.
#
#     bench/hostile.sh [TYPETOOL]
set -euo pipefail
cd "$(dirname "$0")/.."
work=$(mktemp -d)
trap 'rm -rf "$work"' EXIT
python3 bench/hostile.py "${1:-bin/typetool}" "$work"
