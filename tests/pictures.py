#!/usr/bin/env python3
"""Draws the recordings of tests/ and examples/ by `picture` in both profiles, and compares with a plain reading.

    tests/pictures.py TYPETOOL [MOMENTS]

Each picture at so many moments of a recording (60 if not given), the first and the last chunk's among them, is what
plain_picture.py draws of what `screen --escaped` prints at the same moment, and is well formed. The picture that
README.md shows is what the program writes today. The last line is 'N passed, M failed'.
"""
import concurrent.futures
import glob
import os
import subprocess
import sys
import xml.etree.ElementTree

import plain_picture
import plain_reader
import plain_screen

HERE = os.path.dirname(os.path.abspath(__file__))
PROGRAM = os.path.abspath(sys.argv[1])
MOMENTS = int(sys.argv[2]) if len(sys.argv) > 2 else 60
# The pictures in examples/, and what draws them.
SHOWN = (("tour", "--at", "1"), ("today/greet", "--at", "4.9", "--profile", "xterm"))


def run(*words):
    return subprocess.run([PROGRAM, *words], capture_output=True, check=True, timeout=60).stdout


def read(path):
    with open(path, "rb") as file:
        return file.read()


def pairs():
    """Script and timing of each recording."""
    for folder in ("recordings", os.path.join("..", "examples")):
        for script in sorted(glob.glob(os.path.join(HERE, folder, "*.script"))):
            yield script, script[:-7] + ".timing"


def moments_of(script, timing):
    """Moments of chunks in microseconds, as far apart as so many allow."""
    moment, moments = 0, [0]
    for delay, _ in plain_reader.read(read(script), read(timing))[1]:
        moment += delay
        moments.append(moment)
    moments = sorted(set(moments))
    step = max(1, (len(moments) - 1) // MOMENTS)
    return sorted({*moments[::step], moments[-1]})


def drawn(script, timing, profile, moment):
    """Whether a picture is what is to be drawn."""
    seconds = plain_reader.written(moment).decode()
    words = ["--at", seconds, "--profile", profile, script, timing]
    got = run("picture", *words).decode()
    xml.etree.ElementTree.fromstring(got)
    if got == plain_picture.picture(plain_screen.drawn(run("screen", "--escaped", *words)), seconds):
        return True
    print(f"FAILED picture {' '.join(words)}")
    return False


def main():
    asked = [
        (*pair, profile, moment) for pair in pairs() for profile in ("vt100", "vt102") for moment in moments_of(*pair)
    ]
    with concurrent.futures.ThreadPoolExecutor(os.cpu_count()) as pool:
        told = list(pool.map(lambda words: drawn(*words), asked))
    for name, *flags in SHOWN:
        path = os.path.join(HERE, "..", "examples", name)
        told.append(run("picture", *flags, f"{path}.script", f"{path}.timing") == read(f"{path}.svg"))
        if not told[-1]:
            print(f"FAILED examples/{name}.svg isn't what `typetool picture {' '.join(flags)}` writes")
    print(f"pictures: {sum(told)} passed, {len(told) - sum(told)} failed")
    return not all(told)


if __name__ == "__main__":
    sys.exit(main())
