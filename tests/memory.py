#!/usr/bin/env python3
"""Runs each command under a limit on its address space, in rising steps until it succeeds.

    tests/memory.py TYPETOOL [STEP_KIB]

Each run has to end with status 0 and the whole output, or with status 3, `typetool: out of memory`, and a beginning of
the output (the second file of a new pair empty unless the first is whole). The steps begin where the program can be
started at all. A command that met no refusal fails. The last line is 'N passed, M failed'.
"""
import json
import os
import resource
import subprocess
import sys
import tempfile

import commands

program = os.path.abspath(sys.argv[1])
step = 1024 * (int(sys.argv[2]) if len(sys.argv) > 2 else 256)
HEADER = b"Script started on X\n"


def limited(limit):
    return lambda: resource.setrlimit(resource.RLIMIT_AS, (limit, limit))


def run(words, folder, limit, stdin=b""):
    done = subprocess.run(
        [program, *words],
        input=stdin,
        capture_output=True,
        cwd=folder,
        preexec_fn=limited(limit) if limit else None,
        timeout=60,
    )
    return done.returncode, done.stdout, done.stderr


def read(folder, name):
    path = os.path.join(folder, name)
    if not os.path.exists(path):
        return None
    with open(path, "rb") as file:
        return file.read()


def least():
    """The least limit under which the program gets as far as refusing a number of seconds."""
    limit = step
    while True:
        try:
            if run(["due", "--at", "x", "s", "t"], "/", limit)[0] == 2:
                return limit
        except (OSError, subprocess.SubprocessError):
            pass
        limit += step


def recording(folder):
    """600 chunks of text, of scrolling and of questions, and four of 1 MiB; and the same as an asciicast."""
    chunks = [b"line %d\r\n\x1b[%d;5H\x1b[6n" % (n, n % 24) for n in range(600)]
    chunks += [b"A" * 1048576] * 4
    with open(os.path.join(folder, "s"), "wb") as script, open(os.path.join(folder, "t"), "wb") as timing:
        script.write(HEADER + b"".join(chunks))
        timing.write(b"".join(b"0.001 %d\n" % len(chunk) for chunk in chunks))
    with open(os.path.join(folder, "r"), "wb") as file:
        file.write(asciicast(chunks))


def asciicast(chunks):
    lines = [{"version": 2, "width": 80, "height": 24, "env": {"TERM": "vt100"}}]
    lines += [[n / 1000, "o", chunk.decode()] for n, chunk in enumerate(chunks)]
    return "".join(json.dumps(line) + "\n" for line in lines).encode()


REQUESTS = b"insert 0 0.5 %s\ndelete 1 3\nreplace 2 1b5b366e\nretime 1 0.25\ncap 0.5\n" % (b"41" * 100_000)
QUESTIONS = b"screen 99\nreports 99\nchanges - 99\nscreen 0\nlog\ninfo\n"
COMMANDS = [
    *(([*words, "s", "t"], b"") for words in commands.reading("99", "line 5") if words != ["session"]),
    (["find", "--profile", "xterm", "line 5", "s", "t"], b""),
    (["screen", "--state", "--at", "99", "s", "t"], b""),
    (["screen", "--state", "--profile", "xterm", "--at", "99", "s", "t"], b""),
    (["save", "s", "t", "s2", "t2"], REQUESTS),
    (["cut", "--from", "0.1", "--to", "0.4", "s", "t", "s2", "t2"], b""),
    (["cut", "--profile", "xterm", "--from", "0.1", "--to", "0.4", "s", "t", "s2", "t2"], b""),
    (["excerpt", "--from", "0.4", "s", "t", "s2", "t2"], b""),
    (["mend", "s", "t", "s2", "t2"], b""),
    (["import", "r", "s2", "t2"], b""),
    (["redact", "line 5", "s", "t", "s2", "t2"], b""),
    (["redact", "--profile", "xterm", "line 5", "s", "t", "s2", "t2"], b""),
    (["session", "s", "t"], REQUESTS + QUESTIONS),
    (["session", "--profile", "xterm", "s", "t"], REQUESTS + QUESTIONS),
]


def remove_new(folder):
    for name in ("s2", "t2"):
        if os.path.exists(os.path.join(folder, name)):
            os.remove(os.path.join(folder, name))


def is_right(got, files, whole, whole_files):
    """Whether a run did all, or stopped for want of memory with a beginning."""
    if got[0] == 0:
        return got == whole and files == whole_files
    if got[0] != 3 or got[2] != b"typetool: out of memory\n" or not whole[1].startswith(got[1]):
        return False
    script, timing = files
    begun = script is None or whole_files[0].startswith(script)
    return begun and (not timing or script == whole_files[0] and whole_files[1].startswith(timing))


def refusals(words, stdin, folder, start):
    """How many limits refused the command memory, or None where a run was wrong."""
    remove_new(folder)
    whole = run(words, folder, 0, stdin)
    whole_files = read(folder, "s2"), read(folder, "t2")
    assert whole[0] == 0, whole
    limit, refused = start, 0
    while True:
        remove_new(folder)
        got = run(words, folder, limit, stdin)
        if not is_right(got, (read(folder, "s2"), read(folder, "t2")), whole, whole_files):
            print(f"FAILED {' '.join(words)} under {limit} bytes: status {got[0]}, {got[2][:200]}")
            return None
        if got[0] == 0:
            return refused
        refused += 1
        limit += step


def main():
    failed = 0
    with tempfile.TemporaryDirectory() as folder:
        recording(folder)
        start = least()
        for words, stdin in COMMANDS:
            refused = refusals(words, stdin, folder, start)
            print(f"{' '.join(words)}: {refused} limits refused it memory")
            failed += not refused
    print(f"memory: {len(COMMANDS) - failed} passed, {failed} failed")
    return failed > 0


sys.exit(main())
