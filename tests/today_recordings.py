#!/usr/bin/env python3
"""Makes recordings of programs of today, and compares what they leave with what tmux and xterm show of the same bytes.

    tests/today_recordings.py [TYPETOOL [FOLDER]]

Each is made by script(1) on a terminal of its own, of a size of its own, in UTF-8 under xterm-256color, while keys are
typed. At moments spread over it the plain reading (plain_today.py) is compared with tmux (characters and renditions),
with xterm where there is Xvfb (characters), and with `typetool screen --profile xterm` where the program is named
(`''` names none). At the end the plain transcript (plain_transcript.py) is compared with what tmux has kept of the
session, and with `typetool transcript`. With a FOLDER the recordings stay there as NAME.script and NAME.timing.

It takes Debian's tmux, vim, less, mc, dialog, htop, xterm and xvfb. The last line is 'N passed, M failed'.
"""
import difflib
import fcntl
import itertools
import os
import pty
import shutil
import signal
import struct
import subprocess
import sys
import tempfile
import termios
import threading
import time
import unicodedata

import plain_today
import plain_transcript
import skip

program = os.path.abspath(sys.argv[1]) if len(sys.argv) > 1 and sys.argv[1] else None
count = itertools.count()
MOMENTS = 6
PATIENCE = 10
TEXT = """# Reise nach 日本 — Notizen

Der Zug fährt um 8:30 von 東京 nach 京都, naïve Übersetzungen: über, Straße, façade, Ćevapčići.
Emoji: 😀 🚀 🎉, Linien: ┌─┬─┐ │ │ └─┴─┘, Blöcke: ░▒▓█, Braille: ⠋⠙⠹.
Zerlegt: e\u0301, o\u0308, n\u0303; ελληνικά, кириллица, עברית, ไทย.
한국어도 있습니다. 全角ＡＢＣ and half-width ｱｲｳ.
"""
TEXT += "".join(f"{n:3} {'日本語の行 ' * (n % 7)}{'x' * (n * 5 % 60)} Ende {n}\n" for n in range(60))
COLOURS = (
    "for n in 1 2 3 4 5 6 7; do printf '\\033[3%sm\\033[4%smab日本\\033[0m ' $n $((7-n)); done; printf '\\n'; "
    "for n in 16 99 200 231 255; do printf '\\033[48;5;%sm%4s\\033[1;38;2;200;%s;9m%4s' $n $n $n $n; done; "
    "printf '\\033[K\\033[0m\\n'; ls --color=always -C /usr | cat; "
    "printf '\\033[3;9mkursiv\\033[0;2;4mmatt\\033[m\\n'; "
    "for n in 10 40 70 100; do printf '\\r%3s %% [%-20s]' $n $(printf '%0*d' $((n/5)) 0 | tr 0 '#'); sleep .1; done; "
    "printf '\\n'; head -c 900 text.md; "
    "printf '\\033[5A\\033[2Kzurück 🎉\\033[3B\\r\\033[2L\\033[1;31m新\\033[m'; sleep .2"
)

# Name, columns, lines, the program that it takes, the command, and what is typed: seconds to wait, and keys.
RECORDINGS = [
    ("shell", 61, 20, "ls", COLOURS, []),
    (
        "vim",
        90,
        28,
        "vim",
        "vim -u NONE -i NONE -N --cmd 'set encoding=utf-8 number hlsearch laststatus=2' -c 'syntax on' text.md",
        [
            (0.8, "jjw"),
            (0.2, "i日本 insert é\x1b"),
            (0.2, "/Ende\r"),
            (0.2, "nnn"),
            (0.2, ":vsplit\r"),
            (0.3, "\x04\x04\x15"),
            (0.2, "ggO" + "lang 長い" * 20 + "\x1b"),
            (0.3, "dd10jV5jx"),
            (0.3, ":qa!\r"),
        ],
    ),
    (
        "less",
        100,
        30,
        "less",
        "less -R text.md",
        [
            (0.5, " "),
            (0.2, " "),
            (0.2, "b"),
            (0.2, "/日本\r"),
            (0.2, "n"),
            (0.2, "j"),
            (0.2, "k"),
            (0.2, "kkk"),
            (0.3, "q"),
        ],
    ),
    (
        "mc",
        110,
        32,
        "mc",
        "mc --nosubshell /usr /etc",
        [
            (1.0, "\x1b[B\x1b[B"),
            (0.3, "\t"),
            (0.3, "\x1b[B\x1b[6~"),
            (0.3, "\x1b9"),
            (0.4, "\x1b\x1b"),
            (0.6, "\x1b0"),
            (0.3, "\r"),
        ],
    ),
    (
        "dialog",
        72,
        22,
        "dialog",
        "dialog --title '選択 Auswahl' --menu 'Wähle etwas: 日本語 também' 14 50 5 a 'äöü ß' b '日本' c 'ελληνικά' d 'x y'",
        [(0.6, "\x1b[B"), (0.2, "\x1b[B"), (0.2, "\t"), (0.3, "\t"), (0.3, "\r")],
    ),
    (
        "htop",
        120,
        35,
        "htop",
        "htop --delay 5",
        [(1.2, "\x1b[B\x1b[B"), (0.6, "t"), (0.6, "\x1bOR"), (0.5, "\x1b\x1b"), (0.8, "q")],
    ),
    (
        "tmux",
        133,
        41,
        "tmux",
        "tmux -u -f /dev/null -L typetool-inner new-session 'cat text.md; exec sh'",
        [
            (0.8, "\x02%"),
            (0.5, "PS1='日 $ '; ls /\r"),
            (0.5, '\x02"'),
            (0.5, "cat text.md\r"),
            (0.5, "\x02[\x1b[5~"),
            (0.4, "q\x02o"),
            (0.4, "printf '\\033[44mblau\\n'\r"),
            (0.4, "\x02:kill-server\r"),
        ],
    ),
]


class Absent(Exception):
    """What isn't installed."""


class Wrong(Exception):
    """What is wrong with a recording."""


def environment(folder):
    kept = {name: os.environ[name] for name in ("PATH", "USER", "LANG") if name in os.environ}
    own = {"TERM": "xterm-256color", "LC_ALL": "C.UTF-8", "HOME": folder, "SHELL": "/bin/sh", "COLORTERM": "truecolor"}
    return {**kept, **own}


def record(folder, name, columns, lines, command, keys):
    """Runs script on a terminal of a size, and types."""
    child, terminal = pty.fork()
    if child == 0:
        os.chdir(folder)
        fcntl.ioctl(0, termios.TIOCSWINSZ, struct.pack("HHHH", lines, columns, 0, 0))
        words = ["script", "-q", "-f", "-m", "classic", "-T", f"{name}.timing", "-O", f"{name}.script", "-c", command]
        os.execvpe("script", words, environment(folder))

    def drain():
        try:
            while os.read(terminal, 65536):
                pass
        except OSError:
            pass

    reader = threading.Thread(target=drain)
    reader.start()
    for wait, text in keys:
        time.sleep(wait)
        os.write(terminal, text.encode())
    reader.join(PATIENCE)
    if reader.is_alive():
        os.kill(child, signal.SIGTERM)
    os.waitpid(child, 0)
    reader.join()
    os.close(terminal)


def read(path):
    with open(path, "rb") as file:
        return file.read()


def chunks_of(path):
    """The due moment of each chunk, as it is written, and the bytes."""
    script, microseconds = read(f"{path}.script"), 0
    at = script.index(b"\n") + 1
    for line in read(f"{path}.timing").split(b"\n"):
        if line:
            delay, count = line.split()
            whole, _, decimals = delay.partition(b".")
            microseconds += int(whole) * 10**6 + int(decimals.ljust(6, b"0")[:6])
            yield f"{microseconds // 10**6}.{microseconds % 10**6:06}", script[at : at + int(count)]
            at += int(count)


def shown(rows):
    """What is compared with tmux: text and rendition of cells, without spaces at the end, which tmux keeps or not."""
    out = []
    for row in rows:
        cells = [(cell.text, seen(cell)) for cell in row if cell.wide]
        while cells and cells[-1][0] == " ":
            cells.pop()
        out.append(cells)
    return out


def seen(cell):
    """A rendition as tmux keeps it: without blink, and without the ink of a space that shows none."""
    rendition = cell.rendition
    attributes = rendition.attributes & ~plain_today.BLINK
    inked = cell.text != " " or attributes & (plain_today.UNDERSCORE | plain_today.REVERSE | plain_today.CROSSED)
    return attributes if inked else 0, rendition.ink if inked else None, rendition.ground


def rows_of(printed, columns, lines):
    """The rows of a printed screen: lines of characters with renditions."""
    terminal = plain_today.Terminal(columns, lines)
    terminal.feed(b"\x1b[?7l\x1b[20h\x1b)0" + b"\n".join(printed[:lines]))
    return terminal.rows()


def fed(folder, data):
    """A command that puts bytes out in a terminal, and a file that is there once it has."""
    path, done = os.path.join(folder, "bytes"), os.path.join(folder, "done")
    with open(path, "wb") as file:
        file.write(data)
    return f"stty raw -echo; cat {path}; touch {done}; sleep 30", done


def wait_for(path):
    ends = time.monotonic() + PATIENCE
    while not os.path.exists(path):
        if time.monotonic() > ends:
            raise Wrong(f"{path} didn't come in {PATIENCE} s")
        time.sleep(0.02)


def screen_of_tmux(data, columns, lines, *from_where):
    """What tmux shows once it has had these bytes, or has kept from somewhere on."""
    tmux = ["tmux", "-u", "-f", "/dev/null", "-L", f"typetool{os.getpid()}.{next(count)}"]
    with tempfile.TemporaryDirectory() as folder:
        command, done = fed(folder, data)
        # Without a status line the window has all lines.
        words = ["start-server", ";", "set", "-g", "status", "off", ";", "set", "-g", "history-limit", "100000", ";"]
        words += ["new-session", "-d"]
        words += ["-x", str(columns), "-y", str(lines), command]
        environ = environment(folder)
        try:
            subprocess.run([*tmux, *words], check=True, env=environ)
            wait_for(done)
            time.sleep(0.2)
            captured = subprocess.run(
                [*tmux, "capture-pane", "-p", "-e", "-N", *from_where], check=True, capture_output=True, env=environ
            )
            printed = captured.stdout.split(b"\n")
            return rows_of(printed, columns, len(printed) if from_where else lines)
        finally:
            subprocess.run([*tmux, "kill-server"], capture_output=True, env=environ)


def screen_of_xterm(display, data, columns, lines):
    """xterm's screen by its printer. What is pending is cancelled, so that the printer is heard."""
    with tempfile.TemporaryDirectory() as folder:
        printed = os.path.join(folder, "printed")
        command, done = fed(folder, data + b"\x18\x1b[?19h\x1b[i")
        resources = [f"*printerCommand: cat > {printed}; touch {printed}.done", "*printerAutoClose: true"]
        resources += ["*printAttributes: 0", "*scrollBar: false", "*allowWindowOps: false"]
        words = ["xterm", "-u8", "-geometry", f"{columns}x{lines}", "-fn", "fixed"]
        words += [word for resource in resources for word in ("-xrm", resource)]
        environ = {**environment(folder), "DISPLAY": display}
        xterm = subprocess.Popen([*words, "-e", "sh", "-c", command], env=environ, stderr=subprocess.DEVNULL)
        try:
            wait_for(done)
            wait_for(f"{printed}.done")
            # It prints U+FFFF for covered cells here and there.
            text = composed(read(printed).decode().replace("\uffff", "").replace("\r", ""))
            return [line.rstrip(" ") for line in text.split("\n")[:lines]]
        finally:
            xterm.terminate()
            xterm.wait()


def composed(text):
    """xterm prints some marks composed with their character, and some not."""
    return unicodedata.normalize("NFC", text)


class Xvfb:
    """A display of its own, where Xvfb and xterm are installed."""

    def __enter__(self):
        self.server, self.display = None, None
        if shutil.which("Xvfb") and shutil.which("xterm"):
            told, tell = os.pipe()
            words = ["Xvfb", "-displayfd", str(tell), "-screen", "0", "1600x1000x24"]
            self.server = subprocess.Popen(words, pass_fds=[tell], stderr=subprocess.DEVNULL)
            os.close(tell)
            with os.fdopen(told) as number:
                self.display = ":" + number.readline().strip()
        return self

    def __exit__(self, *_):
        if self.server:
            self.server.terminate()
            self.server.wait()


def compare(name, moment, ours, theirs):
    """Two screens, row by row: of the first that differs what stands from the first difference on."""
    theirs = theirs + [type(ours[0])()] * (len(ours) - len(theirs))
    differ = [n for n in range(len(ours)) if ours[n] != theirs[n]]
    if differ:
        mine, other = ours[differ[0]], theirs[differ[0]]
        at = len(os.path.commonprefix([mine, other]))
        told = f"{mine[at : at + 9]}, {name} has {other[at : at + 9]}"
        raise Wrong(f"at {moment} {len(differ)} lines differ from {name}, the first is {differ[0] + 1}: {told}")


def compare_transcripts(path, columns, lines):
    """The transcript beside the rows that tmux keeps of the main sheet, without ED with 3, which wipes them there."""
    data = b"".join(text for _, text in chunks_of(path))
    kept = screen_of_tmux(data.replace(b"\x1b[3J", b"") + b"\x1b[?1047l", columns, lines, "-S", "-")
    theirs = plain_transcript.without_blank_end([plain_today.row_text(row) for row in kept])
    ours = plain_transcript.transcript([(0, data)], "xterm", (columns, lines)).split("\n")[:-1]
    if ours != theirs:
        differ = [row for row in difflib.unified_diff(theirs, ours, "tmux", "the transcript", n=0, lineterm="")]
        raise Wrong("the transcript differs from tmux: " + " / ".join(differ[:9]))
    if program:
        words = [program, "transcript", "--profile", "xterm", "--size", f"{columns}x{lines}"]
        written = subprocess.run([*words, f"{path}.script", f"{path}.timing"], capture_output=True, timeout=PATIENCE)
        if (written.returncode, written.stdout.decode().split("\n")[:-1]) != (0, ours):
            raise Wrong(f"typetool has the transcript {written}, wanted {ours}")


def moments_of(chunks):
    """Some chunks, spread over all, the last with it."""
    moments = min(MOMENTS, len(chunks))
    return sorted({(n + 1) * len(chunks) // moments for n in range(moments)})


def judged(path, columns, lines, display):
    """Compares at each moment; how many terminals were asked."""
    chunks = list(chunks_of(path))
    if not chunks:
        raise Wrong("nothing was recorded")
    plain, played = plain_today.Terminal(columns, lines), 0
    for end in moments_of(chunks):
        moment, data = chunks[end - 1][0], b"".join(text for _, text in chunks[:end])
        plain.feed(data[played:])
        played = len(data)
        ours = shown(plain.rows())
        compare("tmux", moment, ours, shown(screen_of_tmux(data, columns, lines)))
        # A character that is cut is U+FFFD to xterm, once what is pending is cancelled.
        if display and not plain.pending:
            texts = [composed(text) for text in plain.texts()]
            compare("xterm", moment, texts, screen_of_xterm(display, data, columns, lines))
        if program:
            words = [program, "screen", "--profile", "xterm", "--at", moment, f"{path}.script", f"{path}.timing"]
            words[2:2] = ["--size", f"{columns}x{lines}"]
            written = subprocess.run(words, capture_output=True, timeout=PATIENCE)
            if (written.returncode, written.stdout.decode()) != (0, plain_today.plain_text(plain)):
                raise Wrong(f"at {moment} typetool shows {written}, wanted {plain_today.plain_text(plain)!r}")


def main():
    if skip.lacks("script", "recordings of today") or skip.lacks("tmux", "recordings of today"):
        return skip.end(0, 0)
    folder = sys.argv[2] if len(sys.argv) > 2 else tempfile.mkdtemp(prefix="today-")
    os.makedirs(folder, exist_ok=True)
    with open(os.path.join(folder, "text.md"), "w", encoding="utf-8") as file:
        file.write(TEXT)
    passed = failed = 0
    with Xvfb() as server:
        if not server.display:
            skip.skip("what xterm shows", "xterm or Xvfb")
        for name, columns, lines, needed, command, keys in RECORDINGS:
            if skip.lacks(needed, f"the recording {name}"):
                continue
            try:
                record(folder, name, columns, lines, command, keys)
                judged(os.path.join(folder, name), columns, lines, server.display)
                compare_transcripts(os.path.join(folder, name), columns, lines)
                passed += 1
            except Wrong as wrong:
                failed += 1
                print(f"FAILED {name} in {folder}: {wrong}")
    if not failed and len(sys.argv) < 3:
        shutil.rmtree(folder)
    return skip.end(passed, failed)


if __name__ == "__main__":
    sys.exit(main())
