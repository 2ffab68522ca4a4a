"""Makes the inputs of feed.sh and instructions.sh, the same in each run, and times both sides on them."""
import os
import sys

from shared import figure, repeated, shipped, spent, write_recording

RUNS = 3


def numbers(start=1):
    """Numbers below 2^31 without an end, the same in each run."""
    while True:
        start = (1103515245 * start + 12345) % 2**31
        yield start >> 8


def program_text(size):
    """Lines like a program's: blank ones, and indented ones of words and marks, with LF as a terminal gets it."""
    marks = (" ", " ", " ", "(", ")", ", ", ".", " = ", ": ", " -> ", "; ")
    draw, lines = numbers(), []
    for _ in range(20_000):
        words = []
        for _ in range(next(draw) % 14):
            letters = (chr(97 + next(draw) % 26) for _ in range(2 + next(draw) % 9))
            words.append("".join(letters) + marks[next(draw) % len(marks)])
        lines.append(" " * (4 * (next(draw) % 5) if words else 0) + "".join(words).rstrip())
    return repeated("\r\n".join(lines).encode() + b"\r\n", size)


def printable(size):
    return repeated(bytes(range(32, 127)), size)


# Of each input the name, the function that makes its bytes, and the length of its chunks.
APP = ("recordings", shipped, 80)
PLAIN = ("program text", program_text, 4096)
FLOOD = ("printable bytes", printable, 4096)


def main(typetool, libvterm_feed, work, mib):
    for (name, text, chunk), goal in ((APP, 0.145), (PLAIN, 0.034), (FLOOD, 0.026)):
        script, timing = write_recording(work, name.split()[0], text(int(mib) << 20), chunk)
        ours = theirs = float("inf")
        for _ in range(RUNS):
            ours = min(ours, spent([typetool, "screen", "--at", "1000000000000", script, timing])[0])
            theirs = min(theirs, spent([libvterm_feed, script, timing])[0])
        figure(f"{name} over libvterm", ours / theirs, goal, f"({ours:.2f} over {theirs:.2f} s, {mib} MiB)")
        os.remove(script)
        os.remove(timing)


if __name__ == "__main__":
    main(*sys.argv[1:])
