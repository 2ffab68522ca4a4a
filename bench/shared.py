#!/usr/bin/env python3
"""What the benches share: recordings to run on, and what a run of a command takes.

    shared.py shipped FOLDER NAME BYTES CHUNK    writes so many bytes of the shipped recordings, in chunks of a length
    shared.py measure IN OUT COMMAND..           seconds of user and system, and the peak in KiB
    shared.py figure NAME ONE OTHER GOAL         one over the other, and whether that meets the goal

A measured command reads the file IN and writes the file OUT.
"""
import glob
import os
import re
import sys

TOP = os.path.join(os.path.dirname(os.path.abspath(__file__)), "..")


def read(path):
    with open(path, "rb") as file:
        return file.read()


def body(script):
    """A recording's bytes between its header line and the line that script(1) ends it with."""
    text = read(script)
    text = text[text.index(b"\n") + 1 :]
    end = re.search(rb"\nScript done on [^\n]*\n\Z", text)
    return text[: end.start()] if end else text


def shipped(size):
    """So many bytes of the shipped recordings, again and again."""
    scripts = glob.glob(f"{TOP}/examples/*.script") + glob.glob(f"{TOP}/tests/recordings/*.script")
    return repeated(b"".join(body(script) for script in sorted(scripts)), size)


def repeated(piece, size):
    return (piece * (size // len(piece) + 1))[:size]


def write_recording(folder, name, text, chunk, delay=100):
    """A recording of this text in chunks of equal length, a delay of so many microseconds before each: both paths."""
    script, timing = (os.path.join(folder, f"{name}.{kind}") for kind in ("script", "timing"))
    with open(script, "wb") as file:
        file.write(b"Script started\n" + text)
    with open(timing, "w", encoding="ascii") as file:
        for start in range(0, len(text), chunk):
            file.write(f"0.{delay:06} {min(chunk, len(text) - start)}\n")
    return script, timing


def spent(words, stdin=os.devnull, out=os.devnull):
    """The seconds of user and system that a command takes, and its greatest resident size in KiB."""
    pid = os.fork()
    if pid == 0:
        os.dup2(os.open(stdin, os.O_RDONLY), 0)
        os.dup2(os.open(out, os.O_WRONLY | os.O_CREAT | os.O_TRUNC, 0o644), 1)
        os.execvp(words[0], words)
    _, status, usage = os.wait4(pid, 0)
    if status:
        sys.exit(f"{words[0]} failed")
    return usage.ru_utime + usage.ru_stime, usage.ru_maxrss


def figure(name, value, goal, note=""):
    """Every bench ends with a line for each figure: its name, its value, its goal, and whether it is met."""
    met = "met" if value <= goal else "missed"
    print(f"{name:<34}{value:9.4g}  goal {goal:<6g}  {met:<6}  {note}".rstrip(), flush=True)


def main(job, *words):
    if job == "shipped":
        folder, name, size, chunk = words
        write_recording(folder, name, shipped(int(size)), int(chunk))
    elif job == "figure":
        name, one, other, goal = words
        figure(name, float(one) / float(other), float(goal), f"({one} over {other})")
    else:
        print(*spent(words[2:], words[0], words[1]))


if __name__ == "__main__":
    main(*sys.argv[1:])
