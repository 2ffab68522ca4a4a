#!/usr/bin/env bash
# Plays the real recordings of tests/recordings and compares the screens with those that another terminal showed.
#
#     tests/recordings.sh TYPETOOL
#
# The last line is 'N passed, M failed'. A recording whose name ends with -vt102 is played as that, and any other as a
# VT100. NAME.screens holds what xterm showed, 80x24, fed the same bytes (compare.py --write xterm): `at MOMENT`, then 24
# lines. No recordings, or none at some name, is a failure.
set -u
shopt -s nullglob
typetool=$1
recordings=$(dirname "$0")/recordings
failed=0
passed=0
for screens in "$recordings"/*.screens; do
    recording=${screens%.screens}
    case $recording in
    *-vt102) profile=vt102 ;;
    *) profile=vt100 ;;
    esac
    before=$((passed + failed))
    while read -r moment; do
        wanted=$(sed -n "/^at $moment\$/,\${p;}" "$screens" | sed -n '2,25p')
        files=("$recording.script" "$recording.timing")
        if ! shown=$("$typetool" screen --profile "$profile" --at "$moment" "${files[@]}") || [ "$shown" != "$wanted" ]; then
            echo "$(basename "$recording") at $moment: the screens differ"
            failed=$((failed + 1))
        else
            passed=$((passed + 1))
        fi
    done < <(sed -n 's/^at //p' "$screens")
    if [ "$before" = $((passed + failed)) ]; then
        echo "FAILED: no screens in $screens"
        failed=$((failed + 1))
    fi
done
echo "$passed passed, $failed failed"
[ "$failed" = 0 ] && [ "$passed" != 0 ]
