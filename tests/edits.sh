#!/bin/sh
# Tries the edits of tests/edits/CRATE/, the long form of crates/CRATE/must-fail/: the prover must refuse the crate with
# each of them. They turn private functions, or one that an edit of the gate turns in another way.
set -e
top=$(cd "$(dirname "$0")/.." && pwd)
room=$(mktemp -d)
trap 'rm -rf "$room"' EXIT
mkdir "$room/crates"
cp "$top/crates.txt" "$top/HANDLES" "$room"
for crate in "$top"/crates/*/; do
    name=$(basename "$crate")
    mkdir "$room/crates/$name"
    cp -R "$crate/src" "$room/crates/$name"
    for part in specs proofs; do
        if [ -d "$crate/$part" ]; then cp -R "$crate/$part" "$room/crates/$name"; fi
    done
    if [ -d "$top/tests/edits/$name" ]; then cp -R "$top/tests/edits/$name" "$room/crates/$name/must-fail"; fi
done
cd "$room"
rt must-fail "$@"
