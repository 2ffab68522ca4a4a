#!/usr/bin/env python3
"""Folds the data of pages that `page` writes, and compares with what `session` and `screen` tell after each chunk.

    tests/page_data.py TYPETOOL [RECORDINGS [SEED]]

Of each recording of tests/ and examples/ and of so many random ones (500 if not given), in both profiles: the rows that
the entries fold to are those of the same bytes a second apart, as `session` answers; the whole data is what
plain_picture.py makes of what `screen --escaped` prints there; and before and behind it stands the player of assets/,
with a title that would be markup. As many random streams (random_today.py) and the recordings of examples/today are
played by the terminal of today: the data is what plain_today_drawing.py makes of their chunks.
The last line is 'N passed, M failed'.
"""
import concurrent.futures
import glob
import itertools
import json
import os
import random
import re
import subprocess
import sys
import tempfile

import check_reader
import pictures
import plain_picture
import plain_reader
import plain_screen
import plain_today_drawing
import random_recordings
import random_today
import today_fuzz

program = os.path.abspath(sys.argv[1])
count = int(sys.argv[2]) if len(sys.argv) > 2 else 500
seed = int(sys.argv[3]) if len(sys.argv) > 3 else 1
MAKE_PAGE = os.path.join(os.path.dirname(os.path.abspath(__file__)), "..", "assets", "make_page.py")
# Data that no player has.
MARK = "the data of a page"
# A title that would be markup, with quotes and control characters.
TITLE = "</title><script>'\"&amp;\x1b\n\x7f\x9b é─\U0001f600"
PATIENCE = 120


def run(folder, *words, stdin=b""):
    done = subprocess.run([program, *words], input=stdin, capture_output=True, cwd=folder, timeout=PATIENCE)
    return done.returncode, done.stdout, done.stderr


def written(folder, name, recording):
    """Writes the pair of a recording under a name."""
    for kind, text in zip(("script", "timing"), plain_reader.files_of(recording)):
        with open(os.path.join(folder, f"{name}.{kind}"), "wb") as file:
            file.write(text)
    return f"{name}.script", f"{name}.timing"


def dues_of(recording):
    """When each chunk is due, as it is written."""
    moment = 0
    for delay, _ in recording[1]:
        moment += delay
        yield plain_reader.written(moment).decode()


def lines_of(rows):
    """The text that rows of entries show."""
    return ["".join(row[2::2]).rstrip(" ") for row in rows]


def compare(folder, profile, recording):
    """What is wrong with the page of a recording."""
    header, chunks, trailer = recording
    pair = written(folder, "made", recording)
    apart = written(folder, "apart", (header, [(10**6, text) for _, text in chunks], trailer))
    status, page, note = run(folder, "page", "--profile", profile, "--title", TITLE, *pair)
    if (status, note) != (0, check_reader.note_line(profile, header, trailer)):
        return f"status {status}, {note}"
    head, tail = PLAYER
    if not page.startswith(head) or not page.endswith(tail):
        return "the player or the title isn't that of assets/"
    data = page[len(head) : len(page) - len(tail)].decode()
    questions = "".join(f"screen {after}\n" for after in range(len(chunks) + 1)).encode()
    told = run(folder, "session", "--profile", profile, *apart, stdin=questions)[1].decode().split("\n")
    for after, rows in enumerate(plain_picture.folded(json.loads(data))):
        if lines_of(rows) != told[24 * after : 24 * after + 24]:
            return f"other rows after {after} chunks"
    words = ["screen", "--escaped", "--profile", profile, *apart, "--at"]
    screens = [plain_screen.drawn(run(folder, *words, str(after))[1]) for after in range(len(chunks) + 1)]
    return "" if data == plain_picture.data(screens, list(dues_of(recording))) else f"other data: {data}"


def compare_today(folder, size, recording):
    """What is wrong with the page of a recording that the terminal of today plays at a size."""
    pair = written(folder, "made", recording)
    words = ["--profile", "xterm", "--size", f"{size[0]}x{size[1]}", "--title", TITLE]
    status, page, told = run(folder, "page", *words, *pair)
    if status:
        return f"status {status}, {told}"
    head, tail = PLAYER
    chunks = [text for _, text in recording[1]]
    wanted = head + plain_today_drawing.data(size, chunks, list(dues_of(recording))).encode() + tail
    return "" if page == wanted else f"other data of {size} {chunks}: {page[len(head):]}"


def today(number):
    """What is wrong with the page of a random stream."""
    rng = random.Random(seed * 1_000_003 + number)
    size, text = random_today.size(rng), random_today.stream(rng)
    chunks = [(rng.choice([0, 1, 500_000]), chunk) for chunk in today_fuzz.cut(rng, text) if chunk]
    with tempfile.TemporaryDirectory(prefix="page-") as folder:
        problem = compare_today(folder, size, (today_fuzz.HEADER, chunks, b""))
    return [f"stream {number}: {problem[:2000]}"] if problem else []


def shipped(script):
    """What is wrong with the page of a shipped recording of today."""
    with tempfile.TemporaryDirectory(prefix="page-") as folder:
        recording = plain_reader.read(pictures.read(script), pictures.read(script.removesuffix("script") + "timing"))
        size = re.search(rb'COLUMNS="(\d+)" LINES="(\d+)"', recording[0])
        problem = compare_today(folder, (int(size[1]), int(size[2])), recording)
    return [f"{script}: {problem[:2000]}"] if problem else []


def real():
    """Name and recording of each pair of files."""
    for script, timing in pictures.pairs():
        yield os.path.basename(script), plain_reader.read(pictures.read(script), pictures.read(timing))


def made():
    """Random recordings."""
    for number in range(count):
        yield f"recording {number}", random_recordings.recording(random.Random(seed * 1_000_003 + number))


def one(named):
    """What is wrong with the pages of a recording."""
    name, recording = named
    with tempfile.TemporaryDirectory(prefix="page-") as folder:
        told = [(profile, compare(folder, profile, recording)) for profile in ("vt100", "vt102")]
    return [f"{name} as {profile}: {problem[:2000]}" for profile, problem in told if problem]


def player():
    """What make_page.py puts before and behind data."""
    with tempfile.NamedTemporaryFile("w", suffix=".json") as file:
        file.write(MARK)
        file.flush()
        return subprocess.run([MAKE_PAGE, file.name, TITLE], capture_output=True, check=True).stdout.split(
            MARK.encode()
        )


PLAYER = player()
TODAY = sorted(
    glob.glob(os.path.join(os.path.dirname(os.path.abspath(__file__)), "..", "examples", "today", "*.script"))
)


def main():
    passed = failed = 0
    with concurrent.futures.ThreadPoolExecutor(os.cpu_count()) as pool:
        answers = pool.map(one, [*real(), *made()]), pool.map(today, range(count)), pool.map(shipped, TODAY)
        for problems in itertools.chain(*answers):
            passed, failed = passed + (not problems), failed + bool(problems)
            for problem in problems:
                print(f"FAILED {problem}")
    print(f"pages' data: {passed} passed, {failed} failed")
    return failed > 0


if __name__ == "__main__":
    sys.exit(main())
