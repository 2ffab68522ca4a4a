#!/usr/bin/python3
"""Compares what `cast` writes with a plain reading, and with what other programs make of it.

    tests/cast.py TYPETOOL [RECORDINGS [SEED]]

The recordings are those that are shipped and random ones, each in both profiles. The text is that of plain_cast.py,
over the screens that `screen --escaped` draws after each chunk. pyte, fed with the events of a chunk, shows that
screen: its characters, with a space behind each on the double sizes, their renditions, and the cursor. `asciinema cat`
of a shipped recording's cast writes the texts of its events.

Both are Debian's (`make tools`). The last line is 'N passed, M failed'.
"""
import concurrent.futures
import glob
import json
import os
import random
import subprocess
import sys
import tempfile

import plain_cast
import plain_reader
import plain_screen
import random_recordings
import skip
from plain_screen import BOLD, LINES, REVERSE, SINGLE, UNDERSCORE

try:
    import pyte
except ImportError:
    pyte = None

HERE = os.path.dirname(os.path.abspath(__file__))
PROFILES = ["vt100", "vt102"]
PATIENCE = 20


def run(folder, *words):
    done = subprocess.run(words, stdin=subprocess.DEVNULL, capture_output=True, cwd=folder, timeout=PATIENCE)
    return done.stdout.decode()


def written(folder, name, recording):
    """Writes the pair of a recording under a name."""
    paths = [os.path.join(folder, f"{name}.{kind}") for kind in ("script", "timing")]
    for path, text in zip(paths, plain_reader.files_of(recording)):
        with open(path, "wb") as file:
            file.write(text)
    return paths


def screens_of(program, folder, profile, recording):
    """The screens before the first chunk and after each, of the same chunks a second apart."""
    header, chunks, trailer = recording
    pair = written(folder, "apart", (header, [(10**6, text) for _, text in chunks], trailer))
    for after in range(len(chunks) + 1):
        words = [program, "screen", "--at", str(after), "--escaped", "--profile", profile, *pair]
        yield plain_screen.drawn(run(folder, *words).encode())


def cells_of(screen):
    """What a player is to show: a character and its rendition for each column of each row."""
    for row in screen.rows:
        told = []
        for glyph, rendition in row.inked():
            told.append((plain_screen.character(glyph), rendition))
            told += [(" ", rendition)] if row.size != SINGLE else []
        told += [(" ", 0)] * (plain_cast.columns(screen) - len(told))
        yield [(text, (rendition & ~plain_screen.BLINK) ^ (REVERSE * screen.reversed)) for text, rendition in told]


def shown(player):
    """What pyte shows, and its cursor."""
    names = [("bold", BOLD), ("underscore", UNDERSCORE), ("reverse", REVERSE)]
    rows = [
        [
            (cell.data, sum(bit for name, bit in names if getattr(cell, name)))
            for cell in (player.buffer[line][column] for column in range(player.columns))
        ]
        for line in range(player.lines)
    ]
    return rows, player.cursor.y + 1, player.cursor.x + 1


def played(screens, dues, events):
    """The first chunk behind whose events pyte doesn't show the screen, or None."""
    player = pyte.Screen(80, LINES)
    stream = pyte.Stream(player)
    events = iter(events)
    for n, due in enumerate(dues):
        screen = screens[n + 1]
        for _ in plain_cast.events(screens[n], screen, due).splitlines():
            _, code, text = next(events)
            if code == "r":
                player.resize(LINES, int(text.partition("x")[0]))
            else:
                stream.feed(text)
        if shown(player) != (list(cells_of(screen)), screen.line, plain_cast.column(screen)):
            return n
    return None


def wrongs_of(program, name, recording, others):
    """What is wrong with the casts of a recording, in both profiles; asciinema is asked for `others`."""
    dues = list(plain_cast.dues_of(recording[1]))
    with tempfile.TemporaryDirectory(prefix="cast-") as folder:
        pair = written(folder, "made", recording)
        for profile in PROFILES:
            screens = list(screens_of(program, folder, profile, recording))
            got = run(folder, program, "cast", "--profile", profile, *pair)
            if got != plain_cast.cast(screens, dues):
                yield f"{name}, {profile}: {got[:300]!r}, wanted {plain_cast.cast(screens, dues)[:300]!r}"
                continue
            events = [json.loads(line) for line in got.splitlines()[1:]]
            wrong = pyte and played(screens, dues, events)
            if wrong is not None:
                yield f"{name}, {profile}: pyte shows another screen after chunk {wrong}"
            if others and asciinema_cat(folder, got) != "".join(text for _, code, text in events if code == "o"):
                yield f"{name}, {profile}: asciinema writes something else"


def asciinema_cat(folder, cast):
    """What `asciinema cat` writes of a cast. It wants a terminal of its own, which script(1) gives it."""
    with open(os.path.join(folder, "made.cast"), "w", encoding="utf-8") as file:
        file.write(cast)
    words = f"LC_ALL=C.UTF-8 HOME={folder} asciinema cat made.cast >made.text"
    run(folder, "script", "--quiet", "--command", words, "/dev/null")
    with open(os.path.join(folder, "made.text"), encoding="utf-8", newline="") as file:
        return file.read()


def recordings(count, seed):
    """Name and content of each recording, and whether it is shipped."""
    for script in sorted(glob.glob(f"{HERE}/../examples/*.script") + glob.glob(f"{HERE}/recordings/*.script")):
        with open(script, "rb") as one, open(script[:-7] + ".timing", "rb") as two:
            yield os.path.basename(script)[:-7], plain_reader.read(one.read(), two.read()), True
    for number in range(count):
        rng = random.Random(seed * 1_000_003 + number)
        yield f"random recording {number}", random_recordings.recording(rng), False


def main():
    program = os.path.abspath(sys.argv[1])
    count, seed = (int(word) for word in (sys.argv[2:] + ["200", "1"][len(sys.argv) - 2 :]))
    if not pyte:
        skip.skip("what another terminal shows of a cast", "python3-pyte")
    has_asciinema = not skip.lacks("asciinema", "what another player makes of a cast")
    passed = failed = 0
    with concurrent.futures.ThreadPoolExecutor(os.cpu_count()) as pool:
        made = list(recordings(count, seed))
        for wrongs in pool.map(lambda it: list(wrongs_of(program, *it[:2], it[2] and has_asciinema)), made):
            passed, failed = passed + (not wrongs), failed + bool(wrongs)
            for wrong in wrongs:
                print(f"FAILED {wrong}")
    return skip.end(passed, failed)


sys.exit(main())
