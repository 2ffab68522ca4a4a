#!/usr/bin/env python3
"""Counts instructions of each job on its worst inputs that are known, once and twice as long, so that a form that is
worse than linear is found by itself.

    tests/linear.py TYPETOOL [JOB]

An input of n parts costs what the program takes beyond one of a single part; twice as many parts may cost at most 2.2
times as much. Beside each `find` is told how much more it costs than `screen` at the end. With a job's name it counts
that job alone. The last line is 'N passed, M failed'. It takes valgrind.
"""
import concurrent.futures
import os
import re
import struct
import subprocess
import sys
import tempfile

import plain_reader
import skip

program = os.path.abspath(sys.argv[1])
HEADER = b"Script started on 2026-11-25 10:00:00+00:00\n"
MOST = 2.2
PATIENCE = 120
CALLGRIND = ["valgrind", "--tool=callgrind", "--callgrind-out-file=/dev/null"]
END = "1000000000000"


def cells(n):
    """One character a chunk, on a screen of 132 columns, which is full of them after 3,168."""
    return [b"\x1b[?3h"] + [b"x"] * n


def zeros(n):
    """What od -v prints of zeros: full lines of the same words."""
    return [b"%07o" % (16 * at) + b" 000000" * 8 + b"\r\n" for at in range(n)]


def equal_lines(n):
    """Equal lines, all in one chunk."""
    return [b"the same line\r\n" * n]


def scrolls(n):
    """Lines that move up by one in each chunk."""
    return [b"%d %s\r\n" % (at, b"ab" * (at % 30)) for at in range(n)]


def reversals(n):
    """A screen of many runs, turned to reverse and back in each chunk."""
    runs = b"".join(b"\x1b[%d;1H" % line + b"\x1b[7ma\x1b[mb" * 40 for line in range(1, 25))
    return [runs] + [b"\x1b[?5h", b"\x1b[?5l"] * n


def sequences(n):
    """Sequences that aren't played, each another one."""
    return [b"\x1b[%dQ" % (at % 9999) for at in range(n)]


def modes(n):
    """Sequences of sixteen modes that aren't played."""
    return [b"\x1b[?%sh" % b";".join(b"%d" % (2000 + (16 * at + k) % 7999) for k in range(16)) for at in range(n)]


def resets(n):
    """Resets and alignment patterns by turns."""
    return [b"\x1bc\x1b#8"] * n


def keys(n):
    """A letter and a bell a chunk."""
    return [b"x\a"] * n


def overwritten(n):
    """A screen full of a text, written over by marked letters in one chunk."""
    return [b"ab" * (43 * 66), b"\x1b[H" + "e\u0301".encode() * n]


def named(n):
    """Outputs behind logs of long names, in the multi-stream format: a pair of files."""
    names = b"".join(b"H 0 %s_LOG%s\n" % (log, b" name" * n) for log in (b"OUTPUT", b"INPUT"))
    return HEADER + b"x" * n, names + b"O 0.001 1\n" * n


def erased(n):
    """A letter on the last line and an erased display by turns, in one chunk."""
    return [b"\x1b[24;1H" + b"a\x1b[2J" * n]


def repeated(n):
    """Letters that are repeated by a few bytes."""
    return [b"x\x1b[9999b"] * n


def moved_up(n):
    """A letter and a whole screen that moves up by turns."""
    return [b"a\x1b[99S"] * n


def outputs(n):
    """An asciicast of one character an event."""
    return b'{"version": 2}\n' + b"".join(b'[%d.5, "o", "x"]\n' % at for at in range(n))


def members(n):
    """One whose header has many members."""
    return b"{" + b"".join(b'"%d": [%d], ' % (at, at) for at in range(n)) + b'"version": 3}\n'


def escapes(n):
    """One whose only output is spelled in escapes."""
    return b'{"version": 2}\n[0, "o", "' + b"\\ud83d\\ude00\\u001b\\n" * n + b'"]\n'


def entries(n):
    """An asciicast of version 1, whose version comes last."""
    return b'{"stdout": [' + b", ".join([b'[0.5, "x"]'] * n) + b'], "version": 1}'


def records(n):
    """A ttyrec of one character a record."""
    return b"".join(struct.pack("<3I", at, 0, 1) + b"x" for at in range(n))


def messages(n):
    """Messages of tlog."""
    line = b'{"ver": "2.3", "rec": "r", "id": %d, "pos": %d, "timing": "=80x24>1+9>1", "out_txt": "xy"}\n'
    return b"".join(line % (at + 1, at) for at in range(n))


def characters(n):
    """One message whose timing takes them one by one, and bytes between."""
    told = b'{"ver": "2.3", "id": 1, "pos": 0, "timing": "%s", "out_txt": "%s", "out_bin": [%s]}\n'
    return told % (b">1+1]0/1" * n, b"x" * n, b", ".join([b"27"] * n))


def wide(n):
    """Wide characters with marks in colours."""
    return ["\x1b[38;5;%dm日e\u0301".encode() % (at % 256) for at in range(n)]


TODAY = ("--profile", "xterm", "--size", "132x43")
# The job, what stands before the files, the input, and how many parts it has.
RUNS = [
    (("info",), cells, 20000),
    (("check",), sequences, 4000),
    (("check",), modes, 1000),
    (("screen", "--at", END), cells, 20000),
    (("screen", "--at", END), resets, 500),
    (("screen", "--at", END, *TODAY), wide, 8000),
    (("screen", "--at", END, *TODAY), resets, 200),
    (("reports", "--at", END, *TODAY), cells, 20000),
    (("transcript",), cells, 20000),
    (("transcript",), scrolls, 4000),
    (("transcript",), erased, 1000),
    (("transcript", *TODAY), repeated, 50),
    (("transcript", *TODAY), moved_up, 500),
    (("changes", "--to", END), cells, 8000),
    (("changes", "--to", END), scrolls, 1500),
    (("find", "no such text"), zeros, 300),
    (("find", "x"), scrolls, 600),
    (("find", "x"), cells, 12000),
    (("find", "0"), zeros, 200),
    (("find", "same"), equal_lines, 2000),
    (("find", "x", "--profile", "xterm", "--size", "20x10"), keys, 1000),
    (("find", "ab", *TODAY), overwritten, 60),
    (("find", "a", *TODAY), scrolls, 300),
    (("page",), cells, 8000),
    (("page",), scrolls, 600),
    (("page",), reversals, 100),
    (("cast",), cells, 4000),
    (("cast",), scrolls, 400),
    (("cast",), reversals, 30),
    (("cast", *TODAY), wide, 8000),
    (("mend",), cells, 20000),
    (("import",), outputs, 10000),
    (("import",), members, 10000),
    (("import",), escapes, 10000),
    (("import",), entries, 10000),
    (("import",), records, 20000),
    (("import",), messages, 2000),
    (("import",), characters, 5000),
    (("mend",), named, 2000),
]


def files_of(parts):
    """The files of a recording of these parts, or those that were made: a pair, or one file of another form."""
    if isinstance(parts, (tuple, bytes)):
        return parts if isinstance(parts, tuple) else (parts,)
    return plain_reader.files_of((HEADER, [(1000, part) for part in parts], b""))


def counted(folder, words, parts):
    """How many instructions the program takes on a recording of these parts."""
    files = files_of(parts)
    paths = [os.path.join(folder, f"made.{kind}") for kind in ("script", "timing")][: len(files)]
    for path, text in zip(paths, files):
        with open(path, "wb") as file:
            file.write(text)
    new = [os.path.join(folder, f"new.{kind}") for kind in ("script", "timing")]
    words = [*words, *paths, *(new if words[0] in ("mend", "import") else ())]
    done = subprocess.run(
        [*CALLGRIND, program, *words], capture_output=True, text=True, errors="replace", timeout=PATIENCE
    )
    for path in new:
        if os.path.exists(path):
            os.remove(path)
    return int(re.search(r"Collected : (\d+)", done.stderr)[1])


def one(run):
    """What the parts cost, how much more twice as many do, and what is told beside it."""
    words, made, n = run
    with tempfile.TemporaryDirectory(prefix="linear-") as folder:
        start, once, twice = (counted(folder, words, made(parts)) for parts in (1, n, 2 * n))
        beside = ""
        if words[0] == "find":
            first, last = (counted(folder, ("screen", "--at", END, *words[2:]), made(parts)) for parts in (1, n))
            beside = f", {(once - start) / (last - first):.1f} times `screen`"
    return run, once - start, (twice - start) / (once - start), beside


def main():
    if skip.lacks("valgrind", "instructions at n and 2n"):
        return skip.end(0, 0)
    runs = [run for run in RUNS if sys.argv[2:] in ([], [run[0][0]])]
    passed = 0
    with concurrent.futures.ThreadPoolExecutor(os.cpu_count()) as pool:
        for (words, made, n), cost, ratio, beside in pool.map(one, runs):
            passed += ratio <= MOST
            parts = f"{n} {made.__name__.replace('_', ' ')}"
            told = f"{' '.join(words)}: {parts} take {cost:,} instructions{beside}, twice as many {ratio:.2f}"
            print(told if ratio <= MOST else f"FAILED {told}", flush=True)
    return skip.end(passed, len(runs) - passed)


if __name__ == "__main__":
    sys.exit(main())
