#!/usr/bin/env python3
"""Makes real recordings with util-linux's script(1), of every kind that it writes, and mends them.

    tests/make_recordings.py TYPETOOL [FOLDER]

For each NAME it leaves NAME.script and NAME.timing in the folder, and what `typetool mend` makes of them with the flag
that the kind takes as NAME-mended.script and NAME-mended.timing. That has to be what the plain reading
(mend_reader.py) makes of them. What `screen` shows of it at its end, and what scriptreplay plays of it and of what
`save` writes of it, has to be what the recorded command wrote, or, where the recording was killed, a beginning of it.
The last line is 'N passed, M failed'.
"""
import fcntl
import os
import pty
import shutil
import signal
import struct
import subprocess
import sys
import tempfile
import termios

import mend_reader
import skip

program = os.path.abspath(sys.argv[1])
COMMAND = r"""printf 'one\ntwo\n'; sleep 0.1; printf 'three\n'; read -r line; printf 'got %s\n' "$line" """
PLAYED = [b"one", b"two", b"three", b"got typed"]
SLOW = "for word in one two three four; do printf '%s ' $word; sleep 0.1; done; sleep 5"
RESIZED = "printf 'before '; sleep 0.4; printf 'after '"


def record(words, command, typed=b"typed\n"):
    """Runs script on a command whose input is a pipe."""
    subprocess.run(["script", "-q", *words, "-c", command], input=typed, stdout=subprocess.DEVNULL, check=True)


def record_on_terminal(words, command, awaited, act):
    """Runs script on a terminal of its own, and does something to it once the command has written what is awaited."""
    child, terminal = pty.fork()
    if child == 0:
        os.execvp("script", ["script", "-q", *words, "-c", command])
    written = b""
    acted = False
    try:
        while piece := os.read(terminal, 65536):
            written += piece
            if not acted and awaited in written:
                act(child, terminal)
                acted = True
    except OSError:
        pass
    os.close(terminal)
    os.waitpid(child, 0)


def resize(_child, terminal):
    """Gives the terminal another size, of which the kernel tells script by a signal."""
    fcntl.ioctl(terminal, termios.TIOCSWINSZ, struct.pack("HHHH", 30, 100, 0, 0))


def kill(child, _terminal):
    os.kill(child, signal.SIGKILL)


def make(folder):
    """The recordings: name, flag of mending, words that have to be played in order, signals that have to be told."""
    at = lambda name, kind: os.path.join(folder, f"{name}.{kind}")  # noqa: E731
    pair = lambda name: ["-T", at(name, "timing"), at(name, "script")]  # noqa: E731
    record(pair("classic"), COMMAND)
    yield "classic", "", PLAYED, 0
    record(["-m", "advanced", *pair("advanced")], COMMAND)
    yield "advanced", "", PLAYED, 0
    record(["-I", at("apart", "input"), "-O", at("apart", "script"), "-T", at("apart", "timing")], COMMAND)
    yield "apart", "", PLAYED, 0
    record(["-B", at("both", "script"), "-T", at("both", "timing")], COMMAND)
    yield "both", "", PLAYED, 0
    record(["-T", at("first", "timing"), at("appended", "script")], "printf 'an earlier session\n'")
    record(["-a", *pair("appended")], COMMAND)
    yield "appended", "--last", PLAYED, 0
    record(pair("headless"), COMMAND)
    with open(at("headless", "script"), "rb") as file:
        text = file.read()
    with open(at("headless", "script"), "wb") as file:
        file.write(text[text.index(b"\n") + 1 :])
    yield "headless", "--headless", PLAYED, 0
    record_on_terminal(["-f", *pair("killed")], SLOW, b"three", kill)
    yield "killed", "", [b"one", b"two"], 0
    record_on_terminal(["-m", "advanced", *pair("resized")], RESIZED, b"before", resize)
    yield "resized", "", [b"before", b"after"], 1


def read(path):
    with open(path, "rb") as file:
        return file.read()


class Wrong(Exception):
    """What is wrong with a recording that was mended."""


def run(*words):
    done = subprocess.run([program, *filter(None, words)], stdin=subprocess.DEVNULL, capture_output=True, timeout=60)
    return done.returncode, done.stdout, done.stderr


def mend(path, how):
    """Mends a recording as the plain reading does, and gives what is told and the status."""
    mended = mend_reader.mend(how, read(f"{path}.script"), read(f"{path}.timing"))
    if mended is None:
        raise Wrong("no header")
    script, timing, told, status = mended
    got = run("mend", how, f"{path}.script", f"{path}.timing", f"{path}-mended.script", f"{path}-mended.timing")
    if got != (status, told.encode(), b""):
        raise Wrong(f"mend answers {got}, wanted {status}, {told!r}")
    if (read(f"{path}-mended.script"), read(f"{path}-mended.timing")) != (script, timing):
        raise Wrong("what was mended isn't what the plain reading comes to")
    return told, status


def in_order(words, text, where):
    at = 0
    for word in words:
        at = text.find(word, at)
        if at < 0:
            raise Wrong(f"{word.decode()} isn't {where}: {text!r}")


def played(path, words):
    """Plays a pair to its end."""
    pair = f"{path}.script", f"{path}.timing"
    status, screen, errors = run("screen", "--at", "1000000", *pair)
    if status or b"typetool: note" not in errors and errors:
        raise Wrong(f"screen answers {status}, {errors!r}")
    in_order(words, screen, "on the screen")
    replay = ["scriptreplay", "-d", "1000", "-t", pair[1], pair[0]]
    in_order(words, subprocess.run(replay, capture_output=True, timeout=60).stdout, "played by scriptreplay")


def tried(path, name, how, words, signals):
    told, status = mend(path, how)
    if signals and f" and {signals} signals left out" not in told:
        raise Wrong(f"{signals} signals aren't told: {told!r}")
    if status and name != "killed":
        raise Wrong(f"something was lost: {told!r}")
    played(f"{path}-mended", words)
    saved = run(
        "save", *(f"{path}-{kind}" for kind in ("mended.script", "mended.timing", "saved.script", "saved.timing"))
    )
    if saved != (0, b"", b""):
        raise Wrong(f"save answers {saved}")
    played(f"{path}-saved", words)


def main():
    if skip.lacks("script", "recordings made here") or skip.lacks("scriptreplay", "playing them"):
        return skip.end(0, 0)
    folder = sys.argv[2] if len(sys.argv) > 2 else tempfile.mkdtemp(prefix="recordings-")
    os.makedirs(folder, exist_ok=True)
    passed = failed = 0
    for name, how, words, signals in make(folder):
        try:
            tried(os.path.join(folder, name), name, how, words, signals)
            passed += 1
        except Wrong as wrong:
            failed += 1
            print(f"FAILED {name} in {folder}: {wrong}")
    if not failed and len(sys.argv) < 3:
        shutil.rmtree(folder)
    return skip.end(passed, failed)


if __name__ == "__main__":
    sys.exit(main())
