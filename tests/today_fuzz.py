#!/usr/bin/env python3
"""Plays rows that xterm showed, and random streams, and compares with a plain reading of the terminal of today.

    tests/today_fuzz.py [TYPETOOL [STREAMS [SEED]]]

The rows of xterm_rows.json are played by the plain reading (plain_today.py), and by `typetool screen`, `picture` and
`reports` with `--profile xterm` where the program is named. Each random stream (random_today.py) is cut into chunks
anywhere, and played at a size of its own; the screens after it, as text and as a picture (plain_today_drawing.py), the
reports, and what `check` tells (check_reader.py), have to be the plain reading's, and so what `session` answers to
questions with edits between them, where `find` finds a text (plain_find.py), and what `redact` tells and leaves of one
(plain_redact.py). The cursor and whether a wrap is pending are told by reports, asked for in one more chunk.

The last line is 'N passed, M failed'.
"""
import concurrent.futures
import json
import os
import random
import subprocess
import sys
import tempfile

import check_reader
import plain_find
import plain_reader
import plain_redact
import plain_today
import plain_today_drawing
import random_today

program = os.path.abspath(sys.argv[1]) if len(sys.argv) > 1 else None
count = int(sys.argv[2]) if len(sys.argv) > 2 else 1000
seed = int(sys.argv[3]) if len(sys.argv) > 3 else 1
PATIENCE = 20
REPLACED = "\ufffd"
HEADER = b"Script started on 2026-11-25 10:00:00+00:00\n"
# What ends whatever is pending, tells the cursor, and then whether a wrap was pending.
ASKED = b"\x18\x1b[6nZ\x1b[6n"


def recorded(chunks):
    """The recording of chunks that are a second apart."""
    return HEADER, [(10**6, chunk) for chunk in chunks], b""


def write(folder, chunks):
    write_pair(folder, plain_reader.files_of(recorded(chunks)))


def write_pair(folder, pair):
    for kind, text in zip(("script", "timing"), pair):
        with open(os.path.join(folder, f"made.{kind}"), "wb") as file:
            file.write(text)


def by_program(folder, size, chunks):
    """What the program shows at each second of chunks that are a second apart, and all reports at the end."""
    write(folder, chunks)
    words = words_of(size)
    end = len(chunks)
    asked = [("screen", end - 1), ("picture", end - 1), ("screen", end), ("reports", end)]
    for job, at in asked:
        run = [program, job, "--at", str(at), *words]
        done = subprocess.run(run, capture_output=True, cwd=folder, timeout=PATIENCE)
        if done.returncode:
            yield f"{job} answers {done.returncode}, {done.stderr!r}"
        else:
            yield done.stdout.decode()
    done = subprocess.run([program, "check", *words], capture_output=True, cwd=folder, timeout=PATIENCE)
    yield done.stdout, done.returncode


def by_reading(size, chunks):
    """The same by the plain reading."""
    terminal = plain_today.Terminal(*size)
    for chunk in chunks[:-1]:
        terminal.feed(chunk)
    yield plain_today.plain_text(terminal)
    yield plain_today_drawing.picture(terminal, f"{len(chunks) - 1}.000000")
    terminal.feed(chunks[-1])
    yield plain_today.plain_text(terminal)
    yield terminal.reports.hex() + "\n"
    yield check_reader.check("xterm", HEADER, b"".join(chunks), b"", size)


def words_of(size):
    return ["--profile", "xterm", "--size", f"{size[0]}x{size[1]}", "made.script", "made.timing"]


def requests(rng, end):
    """Questions, edits in between, and the questions again: of chunks so many seconds long, and of some more."""
    screens = [f"screen {rng.randrange(end + 1)}.5", f"screen {end}"]
    asked = [*screens, f"reports {end}", f"changes - {end}", f"changes 1 {end}"]
    text, at = random_today.stream(rng)[:40].hex() or "-", rng.randrange(end + 1)
    edits = [f"insert {at} 0.5 {text}", f"replace {at} {text}", f"delete {at} {end}", f"retime {at} 3", "cap 0.5"]
    lines = []
    for edit in rng.sample(edits, 3):
        lines += [*rng.sample(asked, 2), edit]
    return "\n".join([*lines, *asked, "info", "log", ""]).encode()


def session_by_program(folder, size, chunks, lines):
    """What a session answers, and its status."""
    write(folder, chunks)
    every = ["--every", str(1 + len(lines) % 3)]
    run = [program, "session", *every, *words_of(size)]
    done = subprocess.run(run, input=lines, capture_output=True, cwd=folder, timeout=PATIENCE)
    return done.returncode, done.stdout + done.stderr


def changes(size, chunks, first, last):
    """The change lines of the chunks that are due after one moment, where there is one, and by another."""
    terminal, time = plain_today.Terminal(*size), 0
    for index, (delay, text) in enumerate(chunks):
        before = list(map(list, terminal.rows()))
        terminal.feed(text)
        time += delay
        rows = [b"%d" % line for line, (old, new) in enumerate(zip(before, terminal.rows()), 1) if old != new]
        if rows and (first is None or time > first) and time <= last:
            yield b" ".join([b"%d" % index, plain_reader.written(time), *rows]) + b"\n"


def session_by_reading(size, chunks, lines):
    """The same by the plain reading."""

    def ask(edited, words):
        if words[0] == b"changes":
            first = None if words[1] == b"-" else plain_reader.seconds(words[1])
            return b"".join(changes(size, edited, first, plain_reader.seconds(words[2]))) + b"end\n"
        if words[0] not in (b"screen", b"reports"):
            return None
        terminal = plain_today.Terminal(*size)
        terminal.feed(plain_reader.due(edited, plain_reader.seconds(words[1])))
        return (plain_today.plain_text(terminal) if words[0] == b"screen" else terminal.reports.hex() + "\n").encode()

    return plain_reader.session(recorded(chunks), lines, ask)


def text_of(rng, screens):
    """What is looked for: most often a piece of what stood on a screen, over the ends of rows too."""
    shown = "".join(row.text for row in rng.choice(screens))
    inked = [at for at, character in enumerate(shown) if character != " "]
    if not inked or rng.random() < 0.2:
        return rng.choice(["a", "x" * 5, "err", "日", "語本", "é", "e\u0301", "\u0301", " a", "b ", REPLACED])
    count, at = rng.choice([1, 1, 2, 2, 3, 5, 8]), rng.choice(inked)
    first = max(at - rng.randrange(count), 0)
    return shown[first : first + count]


def search(rng, size, chunks):
    """What find is asked of these chunks, and what it answers by the plain reading."""
    screens = list(plain_find.screens_of_today(size, b"".join(text for _, text in chunks)))
    text = text_of(rng, screens)
    first, last = (rng.choice([None, None, rng.randrange(len(chunks) + 1) * 10**6]) for _ in range(2))
    bounds = [(flag, at) for flag, at in (("--from", first), ("--to", last)) if at is not None]
    words = [word for flag, at in bounds for word in (flag, plain_reader.written(at).decode())]
    lines = plain_find.found(chunks, screens, first, last, text).encode()
    return ["find", *words, *words_of(size)[:4], "--", text, *words_of(size)[4:]], (0 if lines else 1, lines, b"")


def taking_out(rng, size, chunks):
    """What redact is asked of these chunks, the pair and what it answers by the plain reading, and the new pair.

    The first line tells the size, now and then another one than is asked for.
    """
    header = HEADER[:-1] + b' [TERM="xterm-256color" COLUMNS="%d" LINES="%d"]\n' % random_today.size(rng)
    asked = rng.choice([None, size])
    played = check_reader.played_size(header[:-1], asked)
    recording = header, chunks, rng.choice([b"", b"\nScript done on X\n", b"\nScript done on X\nab"])
    screens = list(plain_find.screens_of_today(played, b"".join(text for _, text in chunks)))
    text = text_of(rng, screens).replace("*", "+")
    script, timing, new, count = plain_redact.redacted(recording, text)
    left = plain_find.screens_of_today(played, b"".join(text for _, text in new[1]))
    lines = plain_find.found(new[1], list(left), None, None, text).encode()
    told = plain_redact.status(recording, new, count, lines), b"redacted %d\n" % count + lines
    words = words_of(size)[:4] if asked else words_of(size)[:2]
    words = ["redact", *words, "--", text, *words_of(size)[4:], "new.script", "new.timing"]
    note = check_reader.note_line("xterm", header, recording[2], asked)
    return plain_reader.files_of(recording), words, (*told, note), (script, timing)


def search_by_program(folder, words):
    done = subprocess.run([program, *words], capture_output=True, cwd=folder, timeout=PATIENCE)
    return done.returncode, done.stdout, done.stderr


def taking_out_by_program(folder, pair, words):
    """What redact answers, and the pair that it writes."""
    write_pair(folder, pair)
    answer, texts = search_by_program(folder, words), []
    for name in ("new.script", "new.timing"):
        with open(os.path.join(folder, name), "rb") as file:
            texts.append(file.read())
    return answer, tuple(texts)


def cut(rng, text):
    """The text in chunks."""
    ends = sorted(rng.randrange(len(text) + 1) for _ in range(rng.randint(0, 3)))
    return [text[first:last] for first, last in zip([0, *ends], [*ends, len(text)])]


def one(number):
    """What went wrong with a random stream."""
    rng = random.Random(seed * 1_000_003 + number)
    size, text = random_today.size(rng), random_today.stream(rng)
    chunks = [*cut(rng, text), ASKED]
    lines = requests(rng, len(chunks))
    timed = recorded(chunks)[1]
    words, found = search(rng, size, timed)
    pair, redact, answer, new_pair = taking_out(rng, size, timed)
    wanted = [*by_reading(size, chunks), session_by_reading(size, chunks, lines), found, (answer, new_pair)]
    if not program:
        return number, None
    with tempfile.TemporaryDirectory(prefix="today-fuzz-") as folder:
        got = [*by_program(folder, size, chunks), session_by_program(folder, size, chunks, lines)]
        got += [search_by_program(folder, words), taking_out_by_program(folder, pair, redact)]
    asked = f"{size} {chunks} {lines} {words} {redact} {pair}"
    return number, None if got == wanted else f"{asked}: got {got}, wanted {wanted}"


def rows_that_differ(rows, size, play):
    """The rows that come out otherwise: the first screen, and both cursors."""
    for row in rows:
        chunks = [bytes.fromhex(row["bytes"]), b"\x1b[6nZ\x1b[6n"]
        screen, _, _, reports, _ = play(size, chunks)
        places = [list(map(int, told[:-1].split(b";"))) for told in bytes.fromhex(reports).split(b"\x1b[")[-2:]]
        got = screen.rstrip("\n").split("\n"), *places
        if got != (row["lines"] or [""], row["cursor"], row["then"]):
            yield f"{row['row']}: got {got}, wanted {row['lines'], row['cursor'], row['then']}"


def rows_judged():
    """How many rows came out as xterm showed them, and how many otherwise."""
    with open(os.path.join(os.path.dirname(os.path.abspath(__file__)), "xterm_rows.json"), encoding="utf-8") as file:
        told = json.load(file)
    with tempfile.TemporaryDirectory(prefix="today-rows-") as folder:
        readings = [("plain", by_reading)]
        if program:
            readings.append(("typetool", lambda size, chunks: by_program(folder, size, chunks)))
        failed = 0
        for name, play in readings:
            for problem in rows_that_differ(told["rows"], told["size"], play):
                failed += 1
                print(f"FAILED {name}, row {problem}")
    return len(told["rows"]) * len(readings) - failed, failed


def main():
    passed, failed = rows_judged()
    with concurrent.futures.ProcessPoolExecutor(os.cpu_count()) as pool:
        for number, problem in pool.map(one, range(count), chunksize=8):
            passed += not problem
            failed += bool(problem)
            if problem:
                print(f"FAILED stream {number}: {problem}")
    print(f"the terminal of today: {passed} passed, {failed} failed")
    return failed > 0


if __name__ == "__main__":
    sys.exit(main())
