"""Counts the instructions of both sides on the inputs of feed.py, for instructions.sh."""
import os
import re
import subprocess
import sys

from feed import APP, FLOOD, PLAIN
from shared import figure, write_recording

CALLGRIND = ["valgrind", "--tool=callgrind", "--callgrind-out-file=/dev/null"]


def counted(words):
    """How many instructions a command takes."""
    ran = subprocess.run(CALLGRIND + words, stdout=subprocess.DEVNULL, stderr=subprocess.PIPE, text=True, check=True)
    return int(re.search(r"Collected : (\d+)", ran.stderr)[1])


def main(typetool, libvterm_feed, work, mib):
    for name, (_, text, chunk), goal in (
        ("app", APP, 0.098),
        ("plain", PLAIN, 0.023),
        ("flood", FLOOD, 0.0105),
    ):
        script, timing = write_recording(work, name, text(int(mib) << 20), chunk)
        ours = counted([typetool, "screen", "--at", "1000000000000", script, timing])
        theirs = counted([libvterm_feed, script, timing])
        figure(f"{name} over libvterm", ours / theirs, goal, f"({ours:,} over {theirs:,} instructions)")
        os.remove(script)
        os.remove(timing)


if __name__ == "__main__":
    main(*sys.argv[1:])
