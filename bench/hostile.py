"""Times streams of one sequence each, for hostile.sh: four times the bytes are to take some four times as long."""
import os
import sys

from shared import figure, repeated, spent, write_recording

ESC = b"\x1b"
FINALS = b"@ABCDEFGHIJKLMPSTXZ`abcdefghilmnrsux"
LARGE, SMALL = 1 << 20, 1 << 18
# How often the time of a quarter of the bytes all of them may take, and the seconds below which nothing is told.
GOAL, SHORT = 6, 0.05


def streams():
    """Of each stream its name and what it repeats."""
    for final in FINALS:
        for params in (b"", b"9999", b"9999;9999"):
            piece = ESC + b"[" + params + bytes([final])
            yield piece[1:].decode(), piece
    yield "a[9999b", b"a" + ESC + b"[9999b"
    yield "wide [9999b", "\u65e5".encode() + ESC + b"[9999b"
    for mode in (6, 7, 47, 1047, 1049):
        yield f"[?{mode}h l", ESC + b"[?%dh" % mode + ESC + b"[?%dl" % mode
    for last in b"78DEMHZc=>":
        yield chr(last), ESC + bytes([last])
    yield "#8", ESC + b"#8"
    yield "title", ESC + b"k"
    yield "string", ESC + b"]0;x\x07"
    yield "open string", ESC + b"P"
    yield "wide", "\u65e5".encode()
    yield "marks", "\u0301".encode()
    yield "broken", b"\xe6\x97"
    yield "upper", b"\xff"
    yield "text", b"a"
    yield "lines", b"\n"
    yield "tabs", b"\t"
    yield "parameters", b"1;"
    yield "digits", b"1"


def main(typetool, work, size="200x50"):
    worst = ("", 0)
    for number, (name, piece) in enumerate(streams()):
        took = []
        for length in (SMALL, LARGE):
            head = ESC + b"[" if name in ("parameters", "digits") else b""
            script, timing = write_recording(work, str(number), head + repeated(piece, length), length + len(head))
            words = [typetool, "screen", "--profile", "xterm", "--size", size, "--at", "1000000000", script, timing]
            took.append(min(spent(words)[0] for _ in range(2)))
            os.remove(script)
            os.remove(timing)
        if took[1] > worst[1]:
            worst = (name, took[1])
        if took[1] >= SHORT:
            figure(f"1 MiB of {name!r} over 256 KiB", took[1] / max(took[0], 0.01), GOAL, f"({took[1]:.2f} s)")
    print(f"longest: {worst[0]!r}, {worst[1]:.2f} s")


if __name__ == "__main__":
    main(*sys.argv[1:])
