#!/usr/bin/env python3
"""Makes recordings with asciinema, ttyrec, tlog-rec and sudo, and compares the pairs that `import` and `mend` make of
them with what their own players write.

    tests/players.py TYPETOOL

A session of colours, other scripts, a byte that is no UTF-8 and pauses is recorded by each on a terminal of its own.
Nothing may be lost. The player of each, asked to wait for nothing, writes the bytes behind the pair's header, and
scriptreplay plays the pair as these. (asciinema itself keeps no byte that is no UTF-8: it has U+FFFD there.) tlog-rec
wants /run/utmp, sudo a sudoers file in its place, which unshare(1) puts there for the recording alone; both want root.

All are Debian's (`make tools`). The last line is 'N passed, M failed'.
"""
import fcntl
import os
import pty
import signal
import struct
import subprocess
import sys
import tempfile
import termios
import tty

import skip

program = os.path.abspath(sys.argv[1])
PATIENCE = 60
UTMP = "/run/utmp"
SESSION = """printf 'one\\n'; sleep .1
printf '\\033[1;31mrot\\033[0m \\346\\227\\245\\346\\234\\254 e\\314\\201 \\360\\237\\230\\200\\n'; sleep .05; stty size
printf 'bad \\377 byte\\n'
for n in 1 2 3; do printf '\\r%s %%' $n; sleep .03; done
printf '\\n'
"""
SUDOERS = """Defaults log_output, iolog_dir={folder}/logs, iolog_file=one, !compress_io
root ALL=(ALL) NOPASSWD: ALL
"""


def on_terminal(folder, *words, raw=False):
    """What a command writes on a terminal of its own; on a raw one each byte comes as it is written."""
    child, terminal = pty.fork()
    if child == 0:
        signal.alarm(PATIENCE)
        if raw:
            tty.setraw(0)
        fcntl.ioctl(0, termios.TIOCSWINSZ, struct.pack("4H", 24, 80, 0, 0))
        os.chdir(folder)
        os.execvpe(words[0], words, {**os.environ, "TERM": "xterm-256color", "LC_ALL": "C.UTF-8", "HOME": folder})
    got = b""
    try:
        while some := os.read(terminal, 65536):
            got += some
    except OSError:
        pass
    os.close(terminal)
    os.waitpid(child, 0)
    return got


def run(folder, *words):
    """The status of a command, and what it writes."""
    done = subprocess.run(words, stdin=subprocess.DEVNULL, capture_output=True, cwd=folder, timeout=PATIENCE)
    return done.returncode, done.stdout + done.stderr


def by_asciinema(folder):
    on_terminal(folder, "asciinema", "rec", "-q", "-c", "sh session", "made")
    return ["import", "made"], on_terminal(folder, "asciinema", "cat", "made", raw=True)


def by_ttyrec(folder):
    on_terminal(folder, "ttyrec", "-e", "sh session", "made")
    return ["import", "made"], run(folder, "ttyplay", "-n", "made")[1]


def by_tlog(folder):
    """tlog-play puts the rendition back at its end, and shows the cursor."""
    on_terminal(folder, "tlog-rec", "--writer=file", "--file-path=made", "sh", "session")
    played = on_terminal(folder, "tlog-play", "--reader=file", "--file-path=made", raw=True)
    return ["import", "made"], played.partition(b"\x1b[0m\x1b[?25h\n")[0] if played else None


def by_sudo(folder):
    """sudoreplay says first what it replays."""
    path = os.path.join(folder, "sudoers")
    with open(path, "w", encoding="ascii") as file:
        file.write(SUDOERS.format(folder=folder))
    os.chmod(path, 0o440)
    put = 'mount --bind sudoers /etc/sudoers && exec sudo sh "$0"/session'
    on_terminal(folder, "unshare", "--mount", "sh", "-c", put, folder)
    logged = os.path.join(folder, "logs", "one")
    played = on_terminal(folder, "sudoreplay", "-n", "-s", "1000", "-d", os.path.join(folder, "logs"), "one", raw=True)
    return ["mend", "--headless", f"{logged}/ttyout", f"{logged}/timing"], played.partition(b"\r\n")[2]


# The maker, what it takes, and whether it wants root.
MAKERS = [
    (by_asciinema, ["asciinema"], False),
    (by_ttyrec, ["ttyrec", "ttyplay"], False),
    (by_tlog, ["tlog-rec", "tlog-play"], True),
    (by_sudo, ["sudo", "sudoreplay", "unshare"], True),
]


def wrongs_of(make):
    """What is wrong with the pair that is made of a recording; None where its maker records nothing on this machine."""
    with tempfile.TemporaryDirectory(prefix="players-") as folder:
        with open(os.path.join(folder, "session"), "w", encoding="ascii") as file:
            file.write(SESSION)
        words, played = make(folder)
        if not os.path.exists(os.path.join(folder, words[-1])):
            return None
        told = run(folder, program, *words, "script", "timing")
        if told != (0, b""):
            return [f"{words[0]} ends with {told}"]
        with open(os.path.join(folder, "script"), "rb") as file:
            body = file.read().partition(b"\n")[2]
        wrongs = []
        if body != played or b"\x1b[1;31mrot" not in body or b"24 80" not in body:
            wrongs.append(f"the player writes {played!r}, and the pair has {body!r}")
        replayed = run(folder, "scriptreplay", "--divisor", "1000", "-t", "timing", "-s", "script")
        if replayed != (0, body + b"\n"):
            wrongs.append(f"scriptreplay writes {replayed!r}, and the pair has {body!r}")
        return wrongs


def told_of(make):
    """A maker's recording, as it is told."""
    return f"a recording {make.__name__.replace('_', ' ')}"


def can_make(make, tools, as_root):
    """Whether everything is there that a recording takes."""
    what = told_of(make)
    if any([skip.lacks(tool, what) for tool in tools]):
        return False
    if as_root and os.geteuid() != 0:
        skip.skip(what, "root")
        return False
    if "unshare" in tools and run("/", "unshare", "--mount", "true")[0]:
        skip.skip(what, "mounts of its own")
        return False
    return True


def main():
    passed = failed = 0
    made = not os.path.exists(UTMP) and os.geteuid() == 0
    if made:
        with open(UTMP, "xb"):
            pass
    try:
        for make, tools, as_root in MAKERS:
            if not can_make(make, tools, as_root):
                continue
            wrongs = wrongs_of(make)
            if wrongs is None:
                skip.skip(told_of(make), "what its maker takes")
                continue
            passed, failed = passed + (not wrongs), failed + bool(wrongs)
            for wrong in wrongs:
                print(f"FAILED {told_of(make)}: {wrong}")
    finally:
        if made:
            os.remove(UTMP)
    return skip.end(passed, failed)


if __name__ == "__main__":
    sys.exit(main())
