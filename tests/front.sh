#!/usr/bin/env bash
# Prints the help of the whole program as it is to be: that of tests/help/typetool.txt, with a line for each command,
# which is the first one of its own help. They stand in the order of docs/COMMANDS.md.
#
#     tests/front.sh
set -eu
cd "$(dirname "$0")/.."
mapfile -t names < <(sed -n 's/^## `typetool \([a-z]*\).*/\1/p' docs/COMMANDS.md)
width=$(printf '%s\n' "${names[@]}" | wc -L)
sed '/^Commands:$/q' tests/help/typetool.txt
for name in "${names[@]}"; do
    printf '  %-*s  %s\n' "$width" "$name" "$(head -n 1 "tests/help/$name.txt")"
done
sed '1,/^Commands:$/d' tests/help/typetool.txt
