#!/usr/bin/env python3
"""Records a program with script(1) in a terminal, while keys are typed.

    record.py OUT.script OUT.timing COMMAND [WAIT KEYS]..

Waits WAIT seconds before it types KEYS (\\e, \\r and the like are escapes) and ends when the command ends. The program
runs under TERM=vt100 or the name that RECORD_TERM has, in 80x24 or the size that RECORD_SIZE has, and without UTF-8 but
where RECORD_LOCALE names a locale.
"""
import fcntl
import os
import pty
import struct
import sys
import termios
import threading
import time

script, timing, command, *keys = sys.argv[1:]
term, size, locale = (os.environ.get(f"RECORD_{name}") for name in ("TERM", "SIZE", "LOCALE"))
columns, lines = map(int, (size or "80x24").split("x"))
pid, terminal = pty.fork()
if pid == 0:
    os.environ.update(TERM=term or "vt100", LINES=str(lines), COLUMNS=str(columns), LC_ALL=locale or "C")
    os.execvp(
        "script",
        ["script", "--logging-format", "classic", "--log-out", script, "--log-timing", timing, "--command", command],
    )
fcntl.ioctl(terminal, termios.TIOCSWINSZ, struct.pack("HHHH", lines, columns, 0, 0))


def drain():
    try:
        while os.read(terminal, 65536):
            pass
    except OSError:
        pass


reader = threading.Thread(target=drain)
reader.start()
for wait, text in zip(keys[::2], keys[1::2]):
    time.sleep(float(wait))
    typed = text.replace("\\e", "\\x1b").encode("ascii", "backslashreplace").decode("unicode_escape")
    os.write(terminal, typed.encode())
os.waitpid(pid, 0)
reader.join()
