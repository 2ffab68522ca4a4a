#!/usr/bin/env python3
"""Cuts random recordings and takes excerpts of them, and looks at what they show at every moment that matters.

    tests/cuts.py TYPETOOL [RECORDINGS [SEED]]

The shipped recordings are cut too, and turned into pages, which have to show the same. Each is played as a VT100, as a
VT102 or as a terminal of today, and cut at moments at which chunks are due, a microsecond before them and a microsecond
behind them. The new pair has to be the one that plain_cut.py comes to, around the text that `screen --state` writes;
and at each moment at which something may change, a microsecond before it and behind it, plain terminals
(plain_terminal.py) that are fed what is due of the new recording have to be what they are by the old one at its moment:
all that they keep, and what becomes of them by more bytes, since what is pending shows only then. `screen --escaped`
and `reports` have to tell the same of both, and standard error the note of a job that plays. The last line is
'N passed, M failed'.
"""
import concurrent.futures
import functools
import glob
import json
import os
import random
import re
import subprocess
import sys
import tempfile

import check_reader
import plain_cut
import plain_reader as plain
import plain_terminal

program = os.path.abspath(sys.argv[1])
count = int(sys.argv[2]) if len(sys.argv) > 2 else 200
seed = int(sys.argv[3]) if len(sys.argv) > 3 else 1
# Far above what any of these recordings takes: a command that isn't done by then is stuck.
PATIENCE = 20
# So many moments of a new recording are looked at: all of a random one, most often.
MOST = 80
TOP = os.path.join(os.path.dirname(os.path.abspath(__file__)), "..")
KINDS = ["tests/recordings", "examples", "examples/today"]
DATA = re.compile('<script type="application/json" id="entries">(.*?)</script>', re.S)


def seconds(moment):
    return plain.written(moment).decode()


def around(moments, most):
    """The moments, and those beside them."""
    near = {at + step for at in moments for step in (-1, 0, 1)}
    return sorted(at for at in near if 0 <= at <= most)


def shipped():
    """The shipped recordings, each with a profile; those of today as of today alone."""
    found = {kind: sorted(glob.glob(os.path.join(TOP, kind, "*.script"))) for kind in KINDS}
    paths = [(path, profile) for kind in KINDS[:2] for path in found[kind] for profile in plain_terminal.PROFILES]
    return paths + [(path, "xterm") for path in found[KINDS[2]]]


def shown_by(page):
    """Moments, and what the entries of a page show from them on; that of a terminal of today tells its size first."""
    rows, entries = [[0]] * 500, json.loads(DATA.search(page.decode())[1])
    for moment, flags, line, column, *changes in (entry for entry in entries if len(entry) > 2):
        before, rows = rows, list(rows)
        for place, change in zip(changes[::2], changes[1::2]):
            rows[place - 1] = before[change - 1] if isinstance(change, int) else change
        yield round(moment * 10**6), (flags, line, column, rows)


def shown_at(shown, moment):
    """What is shown at a moment."""
    return [screen for at, screen in shown if at <= moment][-1]


class Cutting:
    """A recording that is cut: one of those that are shipped, or a random one."""

    def __init__(self, folder, number):
        self.rng = random.Random(seed * 1_000_003 + number)
        self.folder = os.path.join(folder, str(number))
        self.problems = []
        os.mkdir(self.folder)
        self.is_shipped = number < len(SHIPPED)
        if self.is_shipped:
            path, self.profile = SHIPPED[number]
            with open(path, "rb") as script, open(path.removesuffix("script") + "timing", "rb") as timing:
                self.recording = plain.read(script.read(), timing.read())
            self.size = check_reader.played_size(self.recording[0][:-1]) if self.profile == "xterm" else None
        else:
            self.profile = self.rng.choice(plain_terminal.PROFILES)
            self.size = plain_terminal.size_for(self.rng, self.profile)
            self.recording = plain_terminal.recording_for(self.rng, self.profile)
        self.note = check_reader.note_line(self.profile, self.recording[0], self.recording[2], self.size)
        self.flags = plain_terminal.flags_of(self.profile, self.size)

    def path(self, name):
        return os.path.join(self.folder, name)

    def run(self, *words):
        words = [program, *words]
        done = subprocess.run(words, stdin=subprocess.DEVNULL, capture_output=True, cwd=self.folder, timeout=PATIENCE)
        return done.returncode, done.stdout, done.stderr

    def expect(self, name, got, wanted):
        if got != wanted:
            self.problems.append(f"{name}: got {str(got)[:300]}, wanted {str(wanted)[:300]}")

    def write(self):
        for name, text in zip(("s", "t"), plain.files_of(self.recording)):
            with open(self.path(name), "wb") as file:
                file.write(text)

    def read(self):
        with open(self.path("s2"), "rb") as script, open(self.path("t2"), "rb") as timing:
            return plain.read(script.read(), timing.read())

    def told(self, kind, at, *pair):
        """What a command tells of a moment of a pair."""
        status, out, errors = self.run(*kind, "--at", seconds(at), *self.flags, *pair)
        self.expect(f"{kind} at {at}", (status, errors), (0, self.note))
        return out

    def reports(self, at, *pair):
        """All that a pair has sent by a moment, in hexadecimal digits."""
        return self.told(["reports"], at, *pair).strip()

    def same_at(self, name, old, new, moments, old_moment):
        probes = self.rng.sample(plain_terminal.PROBES, 3)
        seen = functools.cache(lambda text: plain_terminal.Fed(self.profile, self.size, text).seen(probes))
        for at in moments:
            got, wanted = seen(plain.due(new, at)), seen(plain.due(old, old_moment(at)))
            self.expect(f"{name}: seen at {at}", got, wanted)
        for at in self.rng.sample(moments, min(2, len(moments))):
            then = old_moment(at)
            got = self.told(["screen", "--escaped"], at, "s2", "t2")
            self.expect(f"{name}: drawn at {at}", got, self.told(["screen", "--escaped"], then, "s", "t"))

    def same_page(self, name, moments, old_moment):
        pages = [self.run("page", *self.flags, *pair) for pair in (("s2", "t2"), ("s", "t"))]
        for status, _, errors in pages:
            self.expect(f"{name}: a page", (status, errors), (0, self.note))
        if any(status for status, _, _ in pages):
            return
        new, old = (list(shown_by(page)) for _, page, _ in pages)
        for at in moments:
            self.expect(f"{name}: the page at {at}", shown_at(new, at), shown_at(old, old_moment(at)))

    def job(self, name, words, wanted, old_moment):
        """Runs a job, and compares what it wrote with the chunks that are wanted."""
        for path in ("s2", "t2"):
            if os.path.exists(self.path(path)):
                os.remove(self.path(path))
        told = self.run(name, *words, *self.flags, "s", "t", "s2", "t2")
        self.expect(f"{name} {words}", told, (0, b"", self.note))
        header, chunks, trailer = self.recording
        self.expect(f"{name} {words}: the pair", self.read(), (header, wanted, trailer))
        moments = around([moment for moment, _ in plain_cut.timed(wanted)] + [0], plain.GREATEST)
        some = sorted(self.rng.sample(moments, min(len(moments), MOST)))
        self.same_at(f"{name} {words}", chunks, wanted, some, old_moment)
        if self.is_shipped:
            self.same_page(f"{name} {words}", moments, old_moment)

    def cut(self, start, end):
        state = self.told(["screen", "--state"], end, "s", "t")
        wanted = plain_cut.cut(self.recording[1], start, end, state)
        words = ["--from", seconds(start), "--to", seconds(end)]
        self.job("cut", words, wanted, lambda at: plain_cut.before_cut(at, start, end))
        stay, gone, whole = (self.reports(at, "s", "t") for at in (start, max(start, end), plain.GREATEST))
        self.expect("reports", self.reports(plain.GREATEST, "s2", "t2"), stay + whole[len(gone) :])

    def excerpt(self, start, end):
        state = self.told(["screen", "--state"], start, "s", "t")
        wanted = plain_cut.excerpt(self.recording[1], start, end, state)
        words = ["--from", seconds(start)] + ([] if end is None else ["--to", seconds(end)])
        self.job("excerpt", words, wanted, lambda at: plain_cut.before_excerpt(at, start, end))
        last = plain_cut.before_excerpt(plain.GREATEST, start, end)
        gone, all_by = self.reports(start, "s", "t"), self.reports(last, "s", "t")
        self.expect("reports", self.reports(plain.GREATEST, "s2", "t2"), all_by[len(gone) :])

    def everything(self):
        self.write()
        moments = around([moment for moment, _ in plain_cut.timed(self.recording[1])] + [0], plain.GREATEST)
        for _ in range(2):
            self.cut(self.rng.choice(moments), self.rng.choice(moments))
            self.excerpt(self.rng.choice(moments), self.rng.choice([*moments, None]))


SHIPPED = shipped()


def one(folder, number):
    cutting = Cutting(folder, number)
    try:
        cutting.everything()
    except subprocess.TimeoutExpired as stuck:
        cutting.problems.append(f"stuck: {stuck.cmd}")
    if not cutting.problems:
        for name in os.listdir(cutting.folder):
            os.remove(cutting.path(name))
    return number, cutting.problems


def main():
    failed, whole = 0, count + len(SHIPPED)
    folder = tempfile.mkdtemp(prefix="cutting-")
    with concurrent.futures.ProcessPoolExecutor(os.cpu_count()) as pool:
        for number, problems in pool.map(functools.partial(one, folder), range(whole), chunksize=4):
            failed += bool(problems)
            for problem in problems:
                print(f"FAILED recording {number} in {folder}: {problem}")
    if not failed:
        subprocess.run(["rm", "-rf", folder], check=True)
    print(f"cuts: {whole - failed} passed, {failed} failed")
    return failed > 0


if __name__ == "__main__":
    sys.exit(main())
