#!/usr/bin/env bash
# Proves, tries and tests every crate, and takes the program that was built of them.
#
#     tests/gate.sh
set -euo pipefail
cd "$(dirname "$0")/.."
rt ci
mkdir -p bin
cp crates/typetool/out/typetool bin/typetool
