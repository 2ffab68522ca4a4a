#!/usr/bin/env python3
"""Runs the examples of README.md, docs/COMMANDS.md and docs/TODAY.md, twice, and compares what they print.

    tests/readme.py TYPETOOL
    tests/readme.py --root FOLDER

Each page's blocks marked `console` are one shell's session, in a copy of the repository's top that has examples/ and
bin/typetool: a line that begins with `$ ` is a command, and what stands behind it up to the next one is what it prints
(on the page a text without a last LF has one). The second run finds the files that the first one left.

With --root the shell has this folder as its root, in which the package is installed: its program and its examples. The
last line is 'N passed, M failed'.
"""
import os
import re
import shutil
import subprocess
import sys
import tempfile

TOP = os.path.join(os.path.dirname(os.path.abspath(__file__)), "..")
PAGES = ["README.md", "docs/COMMANDS.md", "docs/TODAY.md"]
MARK = "-- the next example --"


def examples(page):
    """The commands of a page, each with what it prints."""
    with open(os.path.join(TOP, page), encoding="utf-8") as file:
        blocks = re.findall(r"^```console\n(.*?)^```$", file.read(), re.M | re.S)
    for block in blocks:
        for piece in re.split(r"^\$ ", block, flags=re.M)[1:]:
            command, _, printed = piece.partition("\n")
            yield command, printed


def run(commands, root, folder):
    """What each command prints, all of them in one shell."""
    script = "".join(f"{command}\nprintf '%s\\n' '{MARK}'\n" for command in commands)
    words = ["bash", "-c", f"exec 2>&1\ncd {os.path.join('/', os.path.relpath(folder, root))}\n{script}"]
    if root != "/":
        words = ["chroot", root, *words]
    done = subprocess.run(words, stdin=subprocess.DEVNULL, capture_output=True, timeout=120)
    return done.stdout.decode(errors="replace").split(MARK + "\n")[:-1]


def bring(program, root, folder):
    """Puts examples/ and the program into a folder, or the examples that the package brought."""
    if root != "/":
        shutil.copytree(os.path.join(root, "usr/share/doc/typetool/examples"), os.path.join(folder, "examples"))
    else:
        shutil.copytree(os.path.join(TOP, "examples"), os.path.join(folder, "examples"))
        os.mkdir(os.path.join(folder, "bin"))
        shutil.copy(program, os.path.join(folder, "bin", "typetool"))


def main(program, root="/"):
    passed = failed = 0
    for page in PAGES:
        wanted = list(examples(page))
        with tempfile.TemporaryDirectory(dir=os.path.join(root, "tmp") if root != "/" else None) as folder:
            bring(program, root, folder)
            for turn in ("first", "second"):
                got = run([command for command, _ in wanted], root, folder)
                got += [None] * (len(wanted) - len(got))
                for (command, printed), told in zip(wanted, got):
                    if told == printed or told and not told.endswith("\n") and told + "\n" == printed:
                        passed += 1
                    else:
                        failed += 1
                        print(f"FAILED {page}, {turn} run: {command}\n got: {told!r}\n wanted: {printed!r}")
    print(f"examples: {passed} passed, {failed} failed")
    return failed > 0 or not passed


if __name__ == "__main__":
    sys.exit(main(*sys.argv[1:]))
