"""Measures peaks of memory, for memory.sh."""
import os
import sys

from feed import APP
from shared import figure, spent, write_recording

END = "1000000000000"
MIB = 1 << 20


def told(name, kib, goal, files):
    figure(f"MB of {name}", kib * 1024 / 1e6, goal, f"(files of {sum(map(os.path.getsize, files)) / 1e6:.1f} MB)")


def peak(words, stdin=os.devnull):
    return spent(words, stdin)[1]


def long_chunks(work):
    """A recording of a GiB of NUL in 1,024 chunks, which takes no room on the disk."""
    script, timing = (os.path.join(work, f"long.{kind}") for kind in ("script", "timing"))
    with open(script, "wb") as file:
        file.write(b"\n")
        file.truncate(1 + 1024 * MIB)
    with open(timing, "wb") as file:
        file.write(b"0.000100 %d\n" % MIB * 1024)
    return script, timing


def main(typetool, work):
    app = write_recording(work, "app", APP[1](64 * MIB), APP[2])
    told("64 MiB of recordings", peak([typetool, "due", "--at", END, *app]), 125, app)
    requests = os.path.join(work, "requests")
    with open(requests, "w", encoding="ascii") as file:
        file.write(f"screen {END}\n")
    # A peak of reading hides few terminals: so those at every 10 less those at every 20, which are five times as many.
    many, half = (peak([typetool, "session", "--every", every, *app], requests) for every in ("10", "20"))
    told("terminals, at every 100", (many - half) / 5, 25, app)
    body = long_chunks(work)
    told("1 GiB in 1,024 chunks", peak([typetool, "due", "--at", END, *body]), 1100, body)


main(*sys.argv[1:])
