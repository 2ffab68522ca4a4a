#!/usr/bin/env python3
"""Draws state texts of random screens of today in tmux and in xterm.

    tests/state_drawn.py TYPETOOL [BY_TMUX [BY_XTERM [SEED]]]

Each random stream (random_today.py) is played at a size of its own. What `screen --state` writes at its end has to draw
in tmux the characters and renditions that `screen --escaped` draws there, and in xterm the characters: so many screens
in each. Left out is what these terminals show otherwise by how it is written: characters whose width they don't agree
on, or that join others; the UK set, which is all of Latin-1 in xterm; and bytes of a character at the end of all, which
xterm shows as U+FFFD. It takes Debian's tmux, xterm and xvfb. The last line is 'N passed, M failed'.
"""
import concurrent.futures
import functools
import os
import random
import re
import subprocess
import sys
import tempfile

import plain_reader
import random_today
import skip
import today_recordings as drawing

program = os.path.abspath(sys.argv[1])
by_tmux = int(sys.argv[2]) if len(sys.argv) > 2 else 20
by_xterm = int(sys.argv[3]) if len(sys.argv) > 3 else 20
seed = int(sys.argv[4]) if len(sys.argv) > 4 else 1
# A terminal waits most of the time.
AT_ONCE = 8
HEADER = b"Script started on X\n"
# No-break space and soft hyphen, marks and signs that take a column, fillers, joiners, variation selectors.
DIFFERING = "\u00a0\u00ad\u0605\u0903\u093e\u0e31\u115f\u1160\u200d\u20dd\u2d7f\ufdd0\ufe0f\uff9e\U0002f800\U000e0100"
# The first bytes of a character, at the end of a text.
UNFINISHED = re.compile(rb"(?:[\xc2-\xf4]|[\xe0-\xf4][\x80-\xbf]|[\xf0-\xf4][\x80-\xbf]{2})\Z")


def screens_of(size, text):
    """The state text and the escaped print of the terminal of this size that bytes come to."""
    with tempfile.TemporaryDirectory(prefix="drawn-") as folder:
        for name, file_text in zip(("s", "t"), plain_reader.files_of((HEADER, [(0, text)], b""))):
            with open(os.path.join(folder, name), "wb") as file:
                file.write(file_text)
        words = ["--at", "0", "--profile", "xterm", "--size", f"{size[0]}x{size[1]}", "s", "t"]
        for kind in ("--state", "--escaped"):
            run = [program, "screen", kind, *words]
            yield subprocess.run(run, cwd=folder, capture_output=True, check=True, timeout=drawing.PATIENCE).stdout


def agreed(text):
    """A stream without what terminals don't agree on."""
    for character in DIFFERING:
        text = text.replace(character.encode(), b"")
    text = re.sub(rb"(?<=\x1b[()])A", b"B", text)
    return text + b"\x1b[m" if UNFINISHED.search(text) else text


def in_tmux(size, text):
    return drawing.shown(drawing.screen_of_tmux(text, *size))


def in_xterm(display, size, text):
    return drawing.screen_of_xterm(display, text, *size)


def judged(name, show, number):
    """What went wrong with a screen, or None."""
    rng = random.Random(seed * 1_000_003 + number)
    size, text = random_today.size(rng), agreed(random_today.stream(rng))
    try:
        got, wanted = (show(size, drawn) for drawn in screens_of(size, text))
    except (drawing.Wrong, subprocess.SubprocessError) as wrong:
        return f"screen {number} in {name}: {wrong}, of {text} at {size}"
    if got != wanted:
        return f"screen {number} in {name}: got {got}, wanted {wanted}, of {text} at {size}"
    return None


def all_in(name, show, count):
    """How many screens are drawn alike in a terminal, and how many otherwise."""
    failed = 0
    with concurrent.futures.ThreadPoolExecutor(AT_ONCE) as pool:
        for problem in pool.map(lambda number: judged(name, show, number), range(count)):
            failed += bool(problem)
            if problem:
                print(f"FAILED {problem}"[:2000], flush=True)
    return count - failed, failed


def main():
    counts = []
    if not skip.lacks("tmux", "what tmux draws"):
        counts.append(all_in("tmux", in_tmux, by_tmux))
    with drawing.Xvfb() as server:
        if server.display:
            counts.append(all_in("xterm", functools.partial(in_xterm, server.display), by_xterm))
        else:
            skip.skip("what xterm draws", "xterm or Xvfb")
    return skip.end(sum(passed for passed, _ in counts), sum(failed for _, failed in counts))


if __name__ == "__main__":
    sys.exit(main())
