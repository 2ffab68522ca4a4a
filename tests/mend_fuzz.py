#!/usr/bin/env python3
"""Mends damaged pairs of all formats and compares with a plain reading of what that comes to.

    tests/mend_fuzz.py TYPETOOL [PAIRS [SEED]]

Each pair is pieces of real recordings, in the classic, the multi-stream or sudo's format, with inputs in the typescript
or in a log of their own, signals and header lines, lines that end in LF or CR LF, one session behind another, with and
without a header line and script's closing line; bytes of it were flipped, cut, doubled and dropped. `mend`, with each
of its flags, has to write just the pair that the plain reader (mend_reader.py) comes to, and tell just that, with its
status; where the typescript that is read has no LF, it has to say so and write nothing. What it wrote `info` and
`check` have to read without a fault, and `check` notes a trailer just where `mend` told of bytes without timing. The
last line is 'N passed, M failed'.
"""
import concurrent.futures
import functools
import os
import random
import subprocess
import sys
import tempfile

import harm
import mend_reader
import plain_reader as plain

program = os.path.abspath(sys.argv[1])
pairs = int(sys.argv[2]) if len(sys.argv) > 2 else 200
seed = int(sys.argv[3]) if len(sys.argv) > 3 else 1
# Far above what any of these files takes: a command that isn't done by then is stuck.
PATIENCE = 20
FLAGS = ["", "", "--last", "--headless"]


def seconds(rng, us):
    """A delay, now and then spelled in another way."""
    return rng.choice(
        [b"%d.%06d" % divmod(us, 10**6)] * 8 + [b"-1", b"%d" % (us // 10**6), b"999999.9999999", b"1e3"]
    )


def classic(rng, chunks):
    """The timing of chunks in the classic format, and the bytes that it counts."""
    lines = [b"%s %d" % (seconds(rng, delay), len(text)) for delay, text in chunks]
    return b"".join(text for _, text in chunks), lines


def streams(rng, chunks):
    """The same in the multi-stream format, with inputs and signals between."""
    body, lines, shared = b"", [b"H 0.000000 START_TIME now", b"H 0 OUTPUT_LOG  one"], rng.random() < 0.5
    lines.append(rng.choice([b"H 0 INPUT_LOG one", b"H\t0 INPUT_LOG one "]) if shared else b"H 0 INPUT_LOG two")
    for delay, text in chunks:
        if rng.random() < 0.3:
            typed = bytes(rng.randrange(32, 127) for _ in range(rng.randint(0, 5)))
            lines.append(b"I %s %d" % (seconds(rng, 1000), len(typed)))
            body += typed if shared else b""
        if rng.random() < 0.2:
            lines.append(b"S 0.000100 SIGWINCH ROWS=24 COLS=80")
        body += text
        lines.append(b"O %s %d" % (seconds(rng, delay), len(text)))
    return body, lines


def sudo(rng, chunks):
    """The same as sudo logs it, with events of all kinds between."""
    lines = []
    for delay, text in chunks:
        event = rng.choice([b"0 0.5 3", b"3 0.100000000 1", b"1 0.1 9", b"2 0.25 0", b"5 1.5 24 80", b"7 0.1 TSTP"])
        lines += [event] if rng.random() < 0.3 else []
        decimals = b"%d.%09d" % divmod(1000 * delay + rng.randrange(1000), 10**9)
        lines.append(b"%s %s %d" % (rng.choice([b"4", b"4", b"6"]), decimals, len(text)))
    return b"".join(text for _, text in chunks), lines


def ended(rng, lines):
    """Lines with their ends: mostly LF alone, else CR LF everywhere, here and there, or with a CR too many."""
    ends = rng.choice([[b"\n"]] * 6 + [[b"\r\n"], [b"\n", b"\r\n"], [b"\r\n", b"\r\r\n"]])
    timing = b"".join(line + rng.choice(ends) for line in lines)
    return timing if rng.random() < 0.9 else timing[:-1]


def session(rng, whole):
    """A typescript and its timing."""
    header, chunks, trailer = harm.piece(rng, whole)
    trailer = rng.choice([trailer] * 6 + [b"", b"\nScript done on X", b"\nScript done on X\n\n", b"more"])
    body, lines = rng.choice([classic, streams, sudo])(rng, chunks)
    if rng.random() < 0.1:
        lines.insert(
            rng.randint(0, len(lines)), rng.choice([b"", b" \t", b"O", b"0 1", b"X 0 1", b"I 0 1", b"0 1048577"])
        )
    return (header if rng.random() < 0.8 else b"") + body + trailer, ended(rng, lines)


def damaged(rng, whole):
    """A pair, most often with something wrong."""
    script, timing = session(rng, whole)
    if rng.random() < 0.2:
        script = session(rng, whole)[0] + script
    return harm.harmed(rng, script, timing)


class Mending:
    def __init__(self, folder, number):
        self.rng = random.Random(seed * 1_000_003 + number)
        self.folder = os.path.join(folder, str(number))
        self.problems = []
        os.mkdir(self.folder)

    def path(self, name):
        return os.path.join(self.folder, name)

    def run(self, *words):
        words = [program, *filter(None, words)]
        done = subprocess.run(words, stdin=subprocess.DEVNULL, capture_output=True, cwd=self.folder, timeout=PATIENCE)
        return done.returncode, done.stdout, done.stderr

    def expect(self, name, got, wanted):
        if got != wanted:
            self.problems.append(f"{name}: got {str(got)[:300]}, wanted {str(wanted)[:300]}")

    def text(self, name):
        with open(self.path(name), "rb") as file:
            return file.read()

    def everything(self, script, timing):
        for name, text in (("s", script), ("t", timing)):
            with open(self.path(name), "wb") as file:
                file.write(text)
        how = self.rng.choice(FLAGS)
        got = self.run("mend", how, "s", "t", "s2", "t2")
        mended = mend_reader.mend(how, script, timing)
        if mended is None:
            fault = plain.told("typescript has no header line", script, timing)
            self.expect(f"mend {how}", got, (1, b"", fault))
            self.expect("what is left", (self.text("s2"), self.text("t2")), (b"", b""))
            return
        new_script, new_timing, told, status = mended
        hint = (
            plain.hint("timing line 1: bad stream", script, timing) if timing.startswith(b"Script started on ") else ""
        )
        self.expect(f"mend {how}", got, (status, told.encode(), hint.encode()))
        self.expect("the new pair", (self.text("s2"), self.text("t2")), (new_script, new_timing))
        self.expect("what info says of it", self.run("info", "s2", "t2")[::2], (0, b""))
        status, noted, errors = self.run("check", "s2", "t2")
        trailer = (b"note trailer: " in noted, "have no timing" in told)
        self.expect("what check says of it", (status in (0, 1), errors, trailer[0]), (True, b"", trailer[1]))


def one(folder, whole, number):
    mending = Mending(folder, number)
    script, timing = damaged(mending.rng, whole)
    try:
        mending.everything(script, timing)
    except subprocess.TimeoutExpired as stuck:
        mending.problems.append(f"stuck: {stuck.cmd}")
    if not mending.problems:
        for name in os.listdir(mending.folder):
            os.remove(mending.path(name))
    return number, mending.problems


def main():
    whole, failed = harm.recordings(), 0
    folder = tempfile.mkdtemp(prefix="mending-")
    with concurrent.futures.ProcessPoolExecutor(os.cpu_count()) as pool:
        for number, problems in pool.map(functools.partial(one, folder, whole), range(pairs), chunksize=8):
            failed += bool(problems)
            for problem in problems:
                print(f"FAILED pair {number} in {folder}: {problem}")
    if not failed:
        subprocess.run(["rm", "-rf", folder], check=True)
    print(f"mended pairs: {pairs - failed} passed, {failed} failed")
    return failed > 0


if __name__ == "__main__":
    sys.exit(main())
