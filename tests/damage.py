#!/usr/bin/env python3
"""Plays damaged recordings by every command and compares with a plain reader of the format.

    tests/damage.py TYPETOOL [PAIRS [SEED]]

Each pair is a real recording, or pieces of several, whose bytes were flipped, cut, doubled and joined. Every command
has to return in time, with a status of the table: where the plain reader (plain_reader.py) finds a fault, 1 (of `find`
and `redact` 3) and just that fault, nothing written; else 0, or 1 where `save` refuses a request line, `check` notes
something or a text is left, and the text that the plain readers come to, where they know it (check_reader.py: of
checks, and the note on standard error). What `save` writes is the pair that the plain reader's edits come to; what
`redact` writes has * for each byte of a text that stood there. `mend` writes and tells of each pair what its plain
reader (mend_reader.py) comes to.
The last line is 'N passed, M failed'.
"""
import concurrent.futures
import functools
import os
import random
import re
import subprocess
import sys
import tempfile

import check_reader
import commands
import harm
import mend_reader
import plain_find
import plain_reader as plain
import plain_redact
import plain_transcript

program = os.path.abspath(sys.argv[1])
pairs = int(sys.argv[2]) if len(sys.argv) > 2 else 200
seed = int(sys.argv[3]) if len(sys.argv) > 3 else 1
# What follows a request line that save refuses.
STAY = "typetool: hint: NEWSCRIPT and NEWTIMING stay, empty: remove them before you try again\n"
# Far above what any of these files takes: a command that isn't done by then is stuck.
PATIENCE = 20


def damaged(rng, whole):
    """A pair, most often with something wrong."""
    script, timing = plain.files_of(harm.piece(rng, whole))
    if rng.random() < 0.2:
        more = plain.files_of(harm.piece(rng, whole))
        script, timing = script + more[0], timing + more[1]
    return harm.harmed(rng, script, timing)


def moment(rng):
    return b"%d.%06d" % (
        rng.choice([0, 0, 1, 2, 5, 60, 10**6, 10**13]),
        rng.choice([0, 1, 250000, rng.randrange(10**6)]),
    )


def request(rng, count):
    """A request line about a recording of so many chunks, now and then a bad one."""

    def at():
        return b"%d" % rng.choice([0, rng.randint(0, count), count, count + 1, rng.randint(0, max(count - 1, 0))])

    def text():
        nine = bytes(rng.randrange(256) for _ in range(9)).hex().encode()
        return rng.choice([b"-", b"1b5b", b"41", b"1b5b366e", b"0d0a", b"zz", b"4", nine])

    def delay():
        return rng.choice([b"0", b"0.5", b"1.", b"1000000", b"1000000.000001", b".5", b"-1"])

    line = rng.choice(
        [
            lambda: b"insert %s %s %s" % (at(), delay(), text()),
            lambda: b"delete %s %s" % (at(), at()),
            lambda: b"replace %s %s" % (at(), text()),
            lambda: b"retime %s %s" % (at(), delay()),
            lambda: b"cap %s" % delay(),
            lambda: b"\tinfo ",
            lambda: b"log",
            lambda: b"",
            lambda: b" \t",
            lambda: b"nonsense",
            lambda: b"cap 1\r",
        ]
    )
    return line()


class Damage:
    def __init__(self, folder, number):
        self.rng = random.Random(seed * 1_000_003 + number)
        self.folder = os.path.join(folder, str(number))
        self.problems, self.runs, self.note = [], 0, b""
        os.mkdir(self.folder)

    def path(self, name):
        return os.path.join(self.folder, name)

    def run(self, words, stdin=b""):
        self.runs += 1
        done = subprocess.run([program, *words], input=stdin, capture_output=True, cwd=self.folder, timeout=PATIENCE)
        return done.returncode, done.stdout, done.stderr

    def expect(self, name, got, wanted):
        if got != wanted:
            self.problems.append(f"{name}: got {str(got)[:300]}, wanted {str(wanted)[:300]}")

    def text(self, name):
        with open(self.path(name), "rb") as file:
            return file.read()

    def write(self, name, text):
        with open(self.path(name), "wb") as file:
            file.write(text)

    def everything(self, script, timing):
        self.write("s", script)
        self.write("t", timing)
        self.mended(script, timing)
        recording = plain.read(script, timing)
        if isinstance(recording, str):
            return self.refused(plain.told(recording, script, timing))
        header, chunks, trailer = recording
        self.note = check_reader.note_line("vt100", header, trailer)
        text, status = check_reader.check("vt100", header, b"".join(chunk for _, chunk in chunks), trailer)
        self.expect("check", self.run(["check", "s", "t"]), (status, text, b""))
        self.played(recording)
        self.found_today(recording)
        self.edited(recording)
        self.redacted(recording, script)

    def mended(self, script, timing):
        """The pair mended: a fault of its header line alone is told as one."""
        mended = mend_reader.mend("", script, timing)
        if mended is None:
            fault = plain.told("typescript has no header line", script, timing)
            new_script, new_timing, wanted = b"", b"", (1, b"", fault)
        else:
            new_script, new_timing, told, status = mended
            wanted = status, told.encode(), b""
        self.expect("mend", self.run(["mend", "s", "t", "s4", "t4"]), wanted)
        self.expect("what mend wrote", (self.text("s4"), self.text("t4")), (new_script, new_timing))

    def refused(self, errors):
        for words in (*commands.reading(), ["find", "--profile", "xterm", "a"]):
            status = 3 if words[0] == "find" else 1
            self.expect(words[0], self.run([*words, "s", "t"], b"info\n"), (status, b"", errors))
        self.expect("save", self.run(["save", "s", "t", "s2", "t2"], b"cap 1\n"), (1, b"", errors))
        self.expect("what save left", (self.text("s2"), self.text("t2")), (b"", b""))
        self.expect("redact", self.run(["redact", "a", "s", "t", "s3", "t3"]), (3, b"", errors))
        self.expect("what redact left", (self.text("s3"), self.text("t3")), (b"", b""))

    def played(self, recording):
        at = moment(self.rng)
        us = plain.seconds(at)
        self.expect("due", self.run(["due", "--at", at, "s", "t"]), (0, plain.due(recording[1], us), b""))
        self.expect("info", self.run(["info", "s", "t"]), (0, plain.info(recording), b""))
        status, screen, errors = self.run(["screen", "--at", at, "s", "t"])
        self.expect("screen", (status, screen.count(b"\n"), errors), (0, 24, self.note))
        status, reports, errors = self.run(["reports", "--at", at, "s", "t"])
        self.expect("reports", (status, len(reports) % 2, errors), (0, 1, self.note))
        for words in (["picture", "--at", at], ["find", "a"], ["page"], ["cast"]):
            status, text, errors = self.run([*words, "s", "t"])
            self.expect(words[0], (status, errors), (0 if text else 1, self.note))
        self.told_as_text(recording)
        self.changed(recording, at, us)

    def told_as_text(self, recording):
        """The transcript; of a long recording whether it ends."""
        status, text, errors = self.run(["transcript", "s", "t"])
        self.expect("transcript", (status, errors), (0, self.note))
        if sum(len(chunk) for _, chunk in recording[1]) < 10_000:
            self.expect("the text", text, plain_transcript.transcript(recording[1], "vt100").encode())

    def found_today(self, recording):
        """What find tells of the terminal of today; of a long recording whether it ends."""
        header, chunks, trailer = recording
        body, size = b"".join(text for _, text in chunks), check_reader.played_size(header.removesuffix(b"\n"))
        status, text, errors = self.run(["find", "--profile", "xterm", "e", "s", "t"])
        note = check_reader.note_line("xterm", header, trailer)
        self.expect("find as of today", (status, errors), (0 if text else 1, note))
        if len(body) < 1500:
            screens = list(plain_find.screens_of_today(size, body))
            self.expect("found as of today", text, plain_find.found(chunks, screens, None, None, "e").encode())

    def changed(self, recording, at, us):
        """Change lines name chunks that are due, when they are due, and lines of the screen, each in rising order."""
        status, text, errors = self.run(["changes", "--to", at, "s", "t"])
        due, times = 0, []
        for delay, _ in recording[1]:
            due += delay
            times.append(due)
        rows = [line.split(b" ") for line in plain.lines_of(text)]
        places = [int(row[0]) for row in rows]
        self.expect("changes", (status, errors, places), (0, self.note, sorted(set(places))))
        for row in rows:
            lines = [int(line) for line in row[2:]]
            self.expect(
                "a change",
                (row[1], times[int(row[0])] <= us, lines and set(lines) <= set(range(1, 25)), lines),
                (plain.written(times[int(row[0])]), True, True, sorted(set(lines))),
            )
        first = self.run(["changes", "--from", at, "--to", at, "s", "t"])
        self.expect("changes of no time", first, (0, b"", self.note))

    def edited(self, recording):
        """Some request lines, and then those of them alone that are accepted."""
        lines = [request(self.rng, len(recording[1])) for _ in range(self.rng.randint(0, 6))]
        self.saved(recording, b"\n".join(lines) + (b"\n" if self.rng.random() < 0.8 else b""))
        chunks, accepted = [list(chunk) for chunk in recording[1]], b""
        for line in lines:
            edit = plain.edit_of(line)
            if edit and plain.edit_fault(chunks, *edit) is None:
                plain.apply(chunks, *edit)
                accepted += line + b"\n"
        for name in ("s2", "t2"):
            os.remove(self.path(name))
        self.saved(recording, accepted)
        self.asked(recording, lines, accepted)

    def asked(self, recording, lines, accepted):
        """The same lines in a session, and what it answers of a moment once they are made: what the commands tell of
        the pair that was saved, wherever terminals are stored."""
        status, text = plain.session(recording, b"\n".join(lines))
        self.expect("session", self.run(["session", "s", "t"], b"\n".join(lines)), (status, text, self.note))
        at = moment(self.rng)
        told = b"ok\n" * accepted.count(b"\n")
        for words in (["screen", "--at", at], ["reports", "--at", at], ["changes", "--to", at], ["info"]):
            told += self.run([*words, "s2", "t2"])[1] + (b"end\n" if words[0] == "changes" else b"")
        questions = accepted + b"screen %s\nreports %s\nchanges - %s\ninfo\n" % (at, at, at)
        for every in ("1", "3", "1000000"):
            self.expect(
                f"session, every {every}",
                self.run(["session", "--every", every, "s", "t"], questions),
                (0, told, self.note),
            )

    def saved(self, recording, edits):
        wanted = plain.save(recording, edits)
        got = self.run(["save", "s", "t", "s2", "t2"], edits)
        if isinstance(wanted, str):
            self.expect("save", got, (1, b"", f"typetool: {wanted}\n{STAY}".encode()))
            wanted = (b"", b"")
        else:
            self.expect("save", got, (0, b"", b""))
        self.expect("what save wrote", (self.text("s2"), self.text("t2")), wanted)

    def redacted(self, recording, script):
        """A piece of the typescript as TEXT: each byte of it is *, and it stands where find says it does."""
        text = piece_of(self.rng, script)
        wanted, count = plain_redact.without(script, text)
        status, told, errors = self.run(["redact", "--", text, "s", "t", "s3", "t3"])
        self.expect("what redact wrote", (self.text("s3"), self.text("t3")), (wanted, plain.save(recording, b"")[1]))
        lines = self.run(["find", "--", text, "s3", "t3"])[1]
        self.expect(f"redact {text}", (told, errors), (b"redacted %d\n%s" % (count, lines), self.note))
        new = plain.read(wanted, self.text("t"))
        self.expect(f"redact {text}, the status", status, plain_redact.status(recording, new, count, lines))


def piece_of(rng, script):
    """Some characters that stand in a typescript one behind the other, or none of it."""
    at = rng.randrange(len(script))
    text = re.match(rb"[ -)+-~]*", script[at : at + rng.choice([1, 1, 2, 3, 8])])[0]
    return text if text.strip(b" ") else b"e"


def one(folder, whole, number):
    damage = Damage(folder, number)
    script, timing = damaged(damage.rng, whole)
    try:
        damage.everything(script, timing)
    except subprocess.TimeoutExpired as stuck:
        damage.problems.append(f"stuck: {stuck.cmd}")
    if not damage.problems:
        for name in os.listdir(damage.folder):
            os.remove(damage.path(name))
    return number, damage.runs, damage.problems


def main():
    whole, runs, failed = harm.recordings(), 0, 0
    folder = tempfile.mkdtemp(prefix="damage-")
    with concurrent.futures.ProcessPoolExecutor(os.cpu_count()) as pool:
        for number, done, problems in pool.map(functools.partial(one, folder, whole), range(pairs), chunksize=8):
            runs += done
            failed += bool(problems)
            for problem in problems:
                print(f"FAILED pair {number} in {folder}: {problem}")
    if not failed:
        subprocess.run(["rm", "-rf", folder], check=True)
    print(f"damaged pairs: {pairs - failed} passed, {failed} failed; {runs} runs of the program")
    return failed > 0


if __name__ == "__main__":
    sys.exit(main())
