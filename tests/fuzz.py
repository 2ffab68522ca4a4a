#!/usr/bin/env python3
"""Plays random recordings by `find`, `redact`, `picture` and `check`, and compares with plain readings.

    tests/fuzz.py TYPETOOL [RECORDINGS [SEED]]

Each is played as a VT100, as a VT102, and, by `find` and `redact`, as a terminal of today too (today_fuzz.py has the
rest). The screens that find lines speak of are those of a page of the same bytes, a chunk each: one run of the program
draws them all (`screen` for each byte takes an hour), and page_data.py says that pages hold what `session` tells;
those of today are plain_today.py's. plain_find.py says what stands there, plain_redact.py what is taken out,
plain_picture.py how a screen is drawn, and check_reader.py what is told of the recording itself, and the note on
standard error.

The last line is 'N passed, M failed'.
"""
import concurrent.futures
import json
import os
import random
import re
import subprocess
import sys
import tempfile

import check_reader
import plain_find
import plain_picture
import plain_reader
import plain_redact
import plain_screen
import random_recordings

program = os.path.abspath(sys.argv[1])
count = int(sys.argv[2]) if len(sys.argv) > 2 else 200
seed = int(sys.argv[3]) if len(sys.argv) > 3 else 1
PATIENCE = 20
PROFILES = ["vt100", "vt102", "xterm"]
DATA = re.compile('<script type="application/json" id="entries">(.*?)</script>', re.S)
TEXTS = [
    "err",
    "er",
    "a",
    "aa",
    "ab",
    "x",
    "r o",
    "a b",
    "xx",
    "─",
    "│",
    "◆▒",
    "q",
    ": no",
    " a",
    "a ",
    "x" * 41,
    "ra",
    "-",
]


def run(folder, *words):
    done = subprocess.run([program, *words], capture_output=True, cwd=folder, timeout=PATIENCE)
    return done.returncode, done.stdout, done.stderr


def written(folder, name, recording):
    """Writes the pair of a recording under a name."""
    for kind, text in zip(("script", "timing"), plain_reader.files_of(recording)):
        with open(os.path.join(folder, f"{name}.{kind}"), "wb") as file:
            file.write(text)
    return f"{name}.script", f"{name}.timing"


def screens_of(folder, profile, recording, size):
    """The rows before the first byte of the body and after each of them; the size is that of a terminal of today."""
    header, chunks, trailer = recording
    body = b"".join(text for _, text in chunks)
    if profile == "xterm":
        yield from plain_find.screens_of_today(size, body)
        return
    pair = written(folder, "apart", (header, [(0, body[at : at + 1]) for at in range(len(body))], trailer))
    entries = json.loads(DATA.search(run(folder, "page", "--profile", profile, *pair)[1].decode())[1])
    for (_, flags, *_), rows in zip(entries, plain_picture.folded(entries)):
        columns = 132 if flags & 1 else 80
        texts = ["".join(row[2::2]).ljust(columns if row[0] == plain_screen.SINGLE else columns // 2) for row in rows]
        yield [plain_find.row_of(text) for text in texts]


def bounds_of(rng, moments):
    """From and to, each now and then left out, in microseconds; now and then those of a chunk."""
    near = [*moments, 0, 1, 10**6]
    return tuple(rng.choice([None, rng.choice(near)]) for _ in range(2))


def moments_of(recording):
    """When each chunk is due."""
    moments, moment = [], 0
    for delay, _ in recording[1]:
        moment += delay
        moments.append(moment)
    return moments


def found(rng, folder, profile, recording, pair):
    """What find writes, and what it is to write."""
    first, last = bounds_of(rng, moments_of(recording))
    text = rng.choice(TEXTS)
    size = check_reader.played_size(recording[0].removesuffix(b"\n"))
    screens = list(screens_of(folder, profile, recording, size))
    wanted = plain_find.found(recording[1], screens, first, last, text).encode()
    words = ["--profile", profile]
    words += [] if first is None else ["--from", plain_reader.written(first).decode()]
    words += [] if last is None else ["--to", plain_reader.written(last).decode()]
    told = run(folder, "find", *words, "--", text, *pair)
    note = check_reader.note_line(profile, recording[0], recording[2])
    return f"find {words} {text!r}", told, (0 if wanted else 1, wanted, note)


def redacted(rng, folder, profile, recording, pair):
    """What redact tells and writes, and what it is to tell and write."""
    text = rng.choice(TEXTS)
    size = check_reader.played_size(recording[0].removesuffix(b"\n"))
    script, timing, new, count = plain_redact.redacted(recording, text)
    lines = plain_find.found(new[1], list(screens_of(folder, profile, new, size)), None, None, text).encode()
    status = plain_redact.status(recording, new, count, lines)
    note = check_reader.note_line(profile, recording[0], recording[2])
    told = run(folder, "redact", "--profile", profile, "--", text, *pair, "new.script", "new.timing")
    pieces = [taken(folder, name) for name in ("new.script", "new.timing")]
    wanted = (status, b"redacted %d\n" % count + lines, note), [script, timing]
    return f"redact {profile} {text!r}", (told, pieces), wanted


def taken(folder, name):
    """The bytes of a file, which is then removed."""
    path = os.path.join(folder, name)
    with open(path, "rb") as file:
        text = file.read()
    os.remove(path)
    return text


def pictured(rng, folder, profile, recording, pair):
    """What picture writes, and what it is to write."""
    seconds = plain_reader.written(rng.choice([0, *moments_of(recording)])).decode()
    words = ["--at", seconds, "--profile", profile, *pair]
    screen = plain_screen.drawn(run(folder, "screen", "--escaped", *words)[1])
    wanted = plain_picture.picture(screen, seconds).encode()
    note = check_reader.note_line(profile, recording[0], recording[2])
    return f"picture {words}", run(folder, "picture", *words), (0, wanted, note)


def checked(_, folder, profile, recording, pair):
    """What check writes, and what it is to write."""
    header, chunks, trailer = recording
    text, status = check_reader.check(profile, header, b"".join(text for _, text in chunks), trailer)
    return f"check {profile}", run(folder, "check", "--profile", profile, *pair), (status, text, b"")


def one(number):
    """What went wrong with a recording."""
    rng = random.Random(seed * 1_000_003 + number)
    recording = random_recordings.recording(rng)
    problems = []
    with tempfile.TemporaryDirectory(prefix="fuzz-") as folder:
        pair = written(folder, "made", recording)
        asked = [(found, profile) for profile in PROFILES] + [(redacted, profile) for profile in PROFILES]
        asked += [(job, profile) for job in (pictured, checked) for profile in PROFILES[:2]]
        for job, profile in asked:
            name, got, wanted = job(rng, folder, profile, recording, pair)
            if got != wanted:
                problems.append(f"{name}: got {got}, wanted {wanted}, of {recording}")
    return number, problems


def main():
    failed = 0
    with concurrent.futures.ProcessPoolExecutor(os.cpu_count()) as pool:
        for number, problems in pool.map(one, range(count), chunksize=8):
            failed += bool(problems)
            for problem in problems:
                print(f"FAILED recording {number}: {problem}")
    print(f"random recordings: {count - failed} passed, {failed} failed")
    return failed > 0


if __name__ == "__main__":
    sys.exit(main())
