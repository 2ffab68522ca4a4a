#!/usr/bin/env python3
"""Writes random recordings as text, and compares with a plain reading.

    tests/transcripts.py TYPETOOL [RECORDINGS [SEED]]

Each recording is told as a VT100, as a VT102 and as a terminal of today, whole and between two moments, and its bytes
once more cut anywhere into other chunks; plain_transcript.py says what is written then.

The last line is 'N passed, M failed'.
"""
import concurrent.futures
import os
import random
import subprocess
import sys
import tempfile

import check_reader
import plain_reader
import plain_transcript
import random_recordings
import random_today

program = os.path.abspath(sys.argv[1])
count = int(sys.argv[2]) if len(sys.argv) > 2 else 200
seed = int(sys.argv[3]) if len(sys.argv) > 3 else 1
PATIENCE = 20
VT_SIZE = (80, 24)


def transcript(folder, words, recording):
    """What the program tells of a recording."""
    for kind, text in zip(("script", "timing"), plain_reader.files_of(recording)):
        with open(os.path.join(folder, f"made.{kind}"), "wb") as file:
            file.write(text)
    run = [program, "transcript", *words, "made.script", "made.timing"]
    done = subprocess.run(run, capture_output=True, cwd=folder, timeout=PATIENCE)
    return done.returncode, done.stdout.decode(), done.stderr


def cut(rng, chunks):
    """The bytes in other chunks, all of them due at once."""
    text = b"".join(piece for _, piece in chunks)
    ends = sorted(rng.randrange(len(text) + 1) for _ in range(rng.randint(0, 5)))
    return [(0, text[first:last]) for first, last in zip([0, *ends], [*ends, len(text)])]


def vt_recording(rng):
    """One after another, so that rows leave."""
    header, chunks, trailer = random_recordings.recording(rng)
    for _ in range(rng.randint(0, 5)):
        chunks += random_recordings.recording(rng)[1]
    return header, chunks, trailer


def today_recording(rng):
    chunks = [(rng.choice([0, 1, 250000, 10**6]), random_today.stream(rng)) for _ in range(rng.randint(0, 4))]
    return random_recordings.header_of(rng), chunks, rng.choice(random_recordings.TRAILERS)


def moment(rng, chunks):
    """A moment at which a chunk is due, or the one before it; or none."""
    times = [sum(delay for delay, _ in chunks[:number]) for number in range(len(chunks) + 1)]
    return rng.choice([None, None, *times, *(time - 1 for time in times if time)])


def stretch_words(first, last):
    bounds = [(flag, at) for flag, at in (("--from", first), ("--to", last)) if at is not None]
    return [word for flag, at in bounds for word in (flag, plain_reader.written(at).decode())]


def judged(rng, profile, recording, size):
    """What is asked, what the program tells, and what it is to tell."""
    header, chunks, trailer = recording
    words = ["--profile", profile]
    words += ["--size", f"{size[0]}x{size[1]}"] if profile == "xterm" else []
    note = check_reader.note_line(profile, header, trailer, size if profile == "xterm" else None)
    first, last = moment(rng, chunks), moment(rng, chunks)
    asked = [(words, chunks, None, None), (words + stretch_words(first, last), chunks, first, last)]
    asked.append((words, cut(rng, chunks), None, None))
    with tempfile.TemporaryDirectory(prefix="transcripts-") as folder:
        for line, pieces, begin, end in asked:
            wanted = 0, plain_transcript.transcript(pieces, profile, size, begin, end), note
            yield line, transcript(folder, line, (header, pieces, trailer)), wanted


def one(number):
    """What went wrong with a random recording of each profile."""
    rng = random.Random(seed * 1_000_003 + number)
    recordings = [(profile, vt_recording(rng), VT_SIZE) for profile in ("vt100", "vt102")]
    recordings.append(("xterm", today_recording(rng), random_today.size(rng)))
    problems = []
    for profile, recording, size in recordings:
        for words, got, wanted in judged(rng, profile, recording, size):
            if got != wanted:
                problems.append(f"{words} of {recording}: got {got}, wanted {wanted}")
    return number, problems


def main():
    passed, failed = 0, 0
    with concurrent.futures.ProcessPoolExecutor(os.cpu_count()) as pool:
        for number, problems in pool.map(one, range(count), chunksize=8):
            passed += not problems
            failed += bool(problems)
            for problem in problems:
                print(f"FAILED recording {number}: {problem}")
    print(f"transcripts: {passed} passed, {failed} failed")
    return failed > 0


if __name__ == "__main__":
    sys.exit(main())
