#!/usr/bin/python3
"""Compares the text screens of `typetool screen` with those of other terminals, at several moments of a recording.

    tests/compare.py [--profile PROFILE] TYPETOOL SCRIPT TIMING [MOMENT..]
    tests/compare.py [--profile PROFILE] --write TERMINAL SCRIPT TIMING MOMENT..

The others are pyte (Debian's python3-pyte), libvterm (libvterm-dev, by libvterm_screen.c and cc), tmux and xterm (with
a DISPLAY, such as xvfb-run gives), each where it is there. Without moments it takes twenty, spread over the recording.
For each moment and terminal it prints `same`, or the lines that differ. The status is 1 if any does. The profile is
`vt100`, or `vt102`; xterm is told to be that too.

The second form writes what one of them shows, in the form that recordings.sh reads: `at MOMENT`, and 24 lines.
"""
import itertools
import os
import re
import subprocess
import sys
import tempfile
import time

# Where another terminal prints the same picture as another character.
SAME = str.maketrans({"♦": "◆", "⩽": "≤", "⩾": "≥", "•": "·"})

# What the special graphics set shows for 5F to 7E.
SPECIAL_GRAPHICS = dict(zip("_`abcdefghijklmnopqrstuvwxyz{|}~", " ◆▒␉␌␍␊°±␤␋┘┐┌└┼⎺⎻─⎼⎽├┤┴┬│≤≥π≠£·"))

count = itertools.count()

# Which terminal typetool and xterm are to be.
profile = "vt100"


def micros(seconds):
    """A moment or a delay in whole microseconds."""
    whole, _, decimals = seconds.partition(".")
    return int(whole) * 1_000_000 + int(decimals[:6].ljust(6, "0"))


def due_chunks(script, timing):
    """The due moment, in microseconds, and the bytes of each chunk."""
    text = open(script, "rb").read()
    at = text.index(b"\n") + 1
    moment = 0
    for line in open(timing):
        if line.split():
            delay, length = line.split()
            moment += 0 if delay.startswith("-") else micros(delay)
            yield moment, text[at : at + int(length)]
            at += int(length)


def trimmed(lines):
    lines = [line.rstrip().translate(SAME) for line in lines[:24]]
    return lines + [""] * (24 - len(lines))


def screen_of_pyte(data):
    import pyte

    screen = pyte.Screen(80, 24)
    stream = pyte.ByteStream(screen)
    stream.select_other_charset("@")
    stream.feed(data)
    return screen.display


def screen_of_libvterm(data, *options):
    folder = os.path.dirname(os.path.abspath(__file__))
    program = os.path.join(tempfile.gettempdir(), f"libvterm_screen.{os.getuid()}")
    source = os.path.join(folder, "libvterm_screen.c")
    if not os.path.exists(program) or os.path.getmtime(program) < os.path.getmtime(source):
        flags = subprocess.run(
            ["pkg-config", "--cflags", "--libs", "vterm"], check=True, capture_output=True, text=True
        ).stdout.split()
        subprocess.run(["cc", "-O2", "-o", program, source, *flags], check=True)
    with tempfile.NamedTemporaryFile() as file:
        file.write(data)
        file.flush()
        return (
            subprocess.run([program, *options, file.name], check=True, capture_output=True).stdout.decode().split("\n")
        )


def plain_of_captured(text):
    """tmux's captured text without its sequences, with what stands between SO and SI as special graphics."""
    parts = re.split("[\x0e\x0f]", re.sub("\x1b\\[[0-9;:]*m", "", text))
    return "".join("".join(SPECIAL_GRAPHICS.get(c, c) for c in part) if n % 2 else part for n, part in enumerate(parts))


def shell_that_feeds(folder, data):
    """A command that puts the bytes out in a terminal, and a file that is there once it has."""
    os.chmod(folder, 0o755)
    fed, done = os.path.join(folder, "bytes"), os.path.join(folder, "done")
    with open(fed, "wb") as file:
        file.write(data)
    return f"stty raw -echo; cat {fed}; touch {done}; sleep 20", done


def wait_for(path):
    while not os.path.exists(path):
        time.sleep(0.02)
    time.sleep(0.3)


def screen_of_tmux(data):
    tmux = ["tmux", "-u", "-f", "/dev/null", "-L", f"typetool{os.getpid()}.{next(count)}"]
    with tempfile.TemporaryDirectory() as folder:
        shell, done = shell_that_feeds(folder, data)
        try:
            subprocess.run([*tmux, "new-session", "-d", "-x", "80", "-y", "24", shell], check=True)
            wait_for(done)
            captured = subprocess.run(
                [*tmux, "capture-pane", "-p", "-e"], check=True, capture_output=True
            ).stdout.decode()
            return plain_of_captured(captured).split("\n")
        finally:
            subprocess.run([*tmux, "kill-server"], capture_output=True)


def printed_by_xterm(data):
    """xterm's screen by its printer: each line with its size and renditions as sequences."""
    if "DISPLAY" not in os.environ:
        raise FileNotFoundError("no DISPLAY: run it under xvfb-run")
    with tempfile.TemporaryDirectory() as folder:
        printed = os.path.join(folder, "printed")
        # A sequence that isn't finished is cancelled, VT52 mode is left, and the whole screen is printed.
        shell, done = shell_that_feeds(folder, data + b"\x18\x1b<\x1b[?19h\x1b[i")
        options = ["-u8", "-132", "-ti", profile, "-geometry", "80x24", "-fn", "fixed"]
        resources = [f"*printerCommand: cat > {printed}", "*printerAutoClose: true", f"*decTerminalID: {profile[2:]}"]
        words = [
            "xterm",
            *options,
            *(word for resource in resources for word in ("-xrm", resource)),
            "-e",
            "sh",
            "-c",
            shell,
        ]
        xterm = subprocess.Popen(words, env={**os.environ, "LC_ALL": "C.UTF-8"})
        wait_for(done)
        xterm.terminate()
        xterm.wait()
        return open(printed, encoding="utf-8", newline="").read()


def screen_of_xterm(data):
    return re.sub("\x1b(\\[[0-9;]*m|#[3-6])", "", printed_by_xterm(data)).split("\r\n")


def screen_of_typetool(typetool, moment, script, timing):
    words = [typetool, "screen", "--profile", profile, "--at", moment, script, timing]
    return subprocess.run(words, check=True, capture_output=True).stdout.decode().split("\n")


TERMINALS = {"pyte": screen_of_pyte, "libvterm": screen_of_libvterm, "tmux": screen_of_tmux, "xterm": screen_of_xterm}


def due(chunks, moment):
    return b"".join(part for at, part in chunks if at <= micros(moment))


def write(terminal, script, timing, *moments):
    chunks = list(due_chunks(script, timing))
    for moment in moments:
        print(f"at {moment}", *trimmed(TERMINALS[terminal](due(chunks, moment))), sep="\n")


def compare(typetool, script, timing, *moments):
    chunks = list(due_chunks(script, timing))
    last = chunks[-1][0] if chunks else 0
    moments = moments or [f"{last * n // 20 / 1e6:.6f}" for n in range(1, 21)]
    differ = False
    for moment in moments:
        ours = trimmed(screen_of_typetool(typetool, moment, script, timing))
        for name, screen_of in TERMINALS.items():
            try:
                theirs = trimmed(screen_of(due(chunks, moment)))
            except (ImportError, FileNotFoundError) as error:
                print(f"{moment} {name}: absent ({error})")
                continue
            lines = [n for n in range(24) if ours[n] != theirs[n]]
            differ = differ or bool(lines)
            print(f"{moment} {name}: " + (f"{len(lines)} lines differ" if lines else "same"))
            for n in lines:
                print(f"  {n + 1:2} ours  |{ours[n]}|\n     {name:<5} |{theirs[n]}|")
    return differ


if __name__ == "__main__":
    arguments = sys.argv[1:]
    if arguments[0] == "--profile":
        profile = arguments[1]
        arguments = arguments[2:]
    if arguments[0] == "--write":
        write(*arguments[1:])
    else:
        sys.exit(compare(*arguments))
