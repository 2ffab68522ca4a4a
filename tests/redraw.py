#!/usr/bin/python3
"""Draws `typetool screen --escaped` again, at several moments of a recording.

    tests/redraw.py TYPETOOL SCRIPT TIMING [MOMENT..]

At each moment the escaped text goes to typetool itself, which must print the same as at that moment, and to xterm (with
a DISPLAY, such as xvfb-run gives) and libvterm, each where it is there: it must show there what the recording itself
shows when it is played in them up to that moment, renditions included. A moment at which another terminal shows
something else than ours of the recording itself is passed over there, since then the two don't agree on the recording.
Without moments it takes twenty, spread over the recording. The status is 1 if anything differs.
"""
import os
import re
import subprocess
import sys
import tempfile

from compare import due, due_chunks, printed_by_xterm, screen_of_libvterm, screen_of_typetool, screen_of_xterm, trimmed


def escaped_by(typetool, moment, script, timing):
    words = [typetool, "screen", "--at", moment, "--escaped", script, timing]
    return subprocess.run(words, check=True, capture_output=True).stdout


def screen_again(typetool, text):
    """What typetool prints of a recording that is this text."""
    with tempfile.TemporaryDirectory() as folder:
        script, timing = os.path.join(folder, "script"), os.path.join(folder, "timing")
        with open(script, "wb") as file:
            file.write(b"Script started on X\n" + text)
        with open(timing, "w") as file:
            file.write(f"0 {len(text)}\n")
        return screen_of_typetool(typetool, "0", script, timing)


def whole_of_xterm(data):
    """Without spaces at the ends of lines: xterm prints those that were written, and none for cells that never were."""
    return [re.sub("(\x1b#5)?( |\x1b\\[0m)*$", "", line) for line in printed_by_xterm(data).split("\r\n")]


def whole_of_libvterm(data):
    return screen_of_libvterm(data, "-r")


# What each shows as plain lines, and all that it shows.
TERMINALS = {"xterm": (screen_of_xterm, whole_of_xterm), "libvterm": (screen_of_libvterm, whole_of_libvterm)}


def told_at(typetool, moment, script, timing, chunks):
    """A line for each terminal, and whether none differs."""
    ours = trimmed(screen_of_typetool(typetool, moment, script, timing))
    text = escaped_by(typetool, moment, script, timing)
    yield "typetool", "same" if trimmed(screen_again(typetool, text)) == ours else "DIFFERENT"
    data = due(chunks, moment)
    for name, (screen_of, whole_of) in TERMINALS.items():
        try:
            if trimmed(screen_of(data)) != ours:
                yield name, "shows something else of the recording itself"
            else:
                yield name, "same" if whole_of(text) == whole_of(data) else "DIFFERENT"
        except FileNotFoundError as error:
            yield name, f"absent ({error})"


def redraw(typetool, script, timing, *moments):
    chunks = list(due_chunks(script, timing))
    last = chunks[-1][0] if chunks else 0
    differ = False
    for moment in moments or [f"{last * n // 20 / 1e6:.6f}" for n in range(1, 21)]:
        for name, told in told_at(typetool, moment, script, timing, chunks):
            differ = differ or told == "DIFFERENT"
            print(f"{moment} {name}: {told}")
    return differ


if __name__ == "__main__":
    sys.exit(redraw(*sys.argv[1:]))
