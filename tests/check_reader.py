#!/usr/bin/env python3
"""A plain reading of what a check writes of a recording, apart from the program: facts, notes, unplayed sequences.

    tests/check_reader.py PROFILE SCRIPT TIMING

Nothing is shared with the crates: header, trailer and sequences are read anew here, by the tables of
docs/TERMINAL.md. It writes the lines and exits with 1 where one of them is a note or an unplayed sequence.
"""
import re
import sys

ESCAPES = set("DEMHZc78=>")
LINES = set("34568")
SETS = set("AB012")
SEQUENCES = set("ABCDHfJKrgmhlqcnx")
EDITING = set("LMP")
VT52 = set("ABCDFGHIJKZ=><")
CELLLESS = {12, 25, *range(1000, 1007), 1015, 1034, 2004}
OPENING = b"Script started on "


def shown(text):
    return bytes(63 if byte < 32 or byte >= 127 else byte for byte in text)


def value(name, line):
    """The value of a name in the header line, or None."""
    if line.endswith(b"<not executed on terminal>]"):
        return None
    at = max(line.rfind(b" " + name + b'="'), line.rfind(b"[" + name + b'="'))
    if at < 0:
        return None
    behind = line[at + len(name) + 3 :]
    return behind[: behind.index(b'"')] if b'"' in behind else None


def size_of(line):
    """Columns and lines, or None."""
    told = [value(b"COLUMNS", line), value(b"LINES", line)]
    if all(text is not None and re.fullmatch(rb"[0-9]+", text) and text.strip(b"0") for text in told):
        return told
    return None


def passes(profile, term):
    names = {"vt100": [b"vt100", b"vt52"], "vt102": [b"vt102", b"vt100", b"vt52"]}[profile]
    return any(term == name or term.startswith(name + b"-") for name in names)


def number(piece):
    """A parameter: at most 9,999, however many digits."""
    digits = piece.lstrip(b"0")
    return 9999 if len(digits) > 4 else int(digits or b"0")


def names_of_modes(profile, private, text, last):
    """The parameters of h or l that have no row, each by itself."""
    for piece in text.split(b";")[:16]:
        param = number(piece)
        if private:
            played = 1 <= param <= 9 or param in CELLLESS
        else:
            played = param == 20 or (param == 4 and profile == "vt102")
        if not played:
            yield b"ESC [ " + (b"? " if private else b"") + b"%d " % param + last


def names_of_control(profile, text, last):
    """What is unplayed of a control sequence by its text and its final byte."""
    private = text.startswith(b"?")
    rest = text[1:] if private else text
    if re.search(rb"[^0-9;]", rest):
        return [b"ESC [ .. " + last]
    if last in (b"h", b"l"):
        return list(names_of_modes(profile, private, rest, last))
    final = last.decode()
    if not private and (final in SEQUENCES or (final in EDITING and profile == "vt102")):
        return []
    return [b"ESC [ " + (b"? " if private else b"") + last]


def names_of_escape(inters, last):
    """What is unplayed of an escape sequence by its intermediates and its final byte."""
    final = last.decode()
    if len(inters) > 1:
        return [b"ESC .. " + last]
    if not inters:
        return [] if final in ESCAPES or final == "\\" else [b"ESC " + last]
    rows = {b"#": LINES, b"(": SETS, b")": SETS}.get(inters, set())
    return [] if final in rows else [b"ESC " + inters + b" " + last]


QUIET_FINALS = {False: set("qt"), True: set("cnqrsum")}
TODAY_ESCAPES = set("DEMHZc78=>k\\")
TODAY_LINES = set("8")
TODAY_SEQUENCES = set("ABCDEFGHIJKLMPSTXZ@`abcdefgmnrsux")
TODAY_MODES = {2, 3, 45, 69, 95}
TODAY_TERMS = set(
    "xterm screen tmux linux vt100 vt102 vt220 rxvt alacritty kitty foot st gnome konsole putty ansi".split()
)


def today_of_control(text, last):
    """What a terminal of today leaves unplayed of a control sequence."""
    private = text.startswith(b"?")
    rest, final = (text[1:] if private else text), last.decode()
    if re.search(rb"[^0-9;]", rest):
        quiet = final in "cnqtu" or (final == "p" and text != b"!") or (final == "m" and b":" not in text)
        return [] if quiet else [b"ESC [ .. " + last]
    if final in "hl":
        params = [number(piece) for piece in rest.split(b";")[:16]]
        return [b"ESC [ ? %d " % param + last for param in params if private and param in TODAY_MODES]
    if final in QUIET_FINALS[private] or (not private and final in TODAY_SEQUENCES):
        return []
    return [b"ESC [ " + (b"? " if private else b"") + last]


def today_of_escape(inters, last):
    """What a terminal of today leaves unplayed of an escape sequence."""
    final = last.decode()
    if len(inters) > 1:
        return [b"ESC .. " + last]
    if not inters:
        return [] if final in TODAY_ESCAPES else [b"ESC " + last]
    if inters in b" %*+-./":
        return []
    rows = {b"#": TODAY_LINES, b"(": SETS, b")": SETS}.get(inters, set())
    return [] if final in rows else [b"ESC " + inters + b" " + last]


def today_passes(term):
    return re.split(rb"[-.]", term)[0].decode("latin-1") in TODAY_TERMS


class Today:
    """Reads the bytes of a body as a terminal of today does: unplayed sequences, and parts that are no UTF-8."""

    def __init__(self, body):
        self.counts, self.parts = {}, 0
        ground, at = bytearray(), 0
        # Pieces: a string or a title up to its end, a sequence, or bytes on ground up to the next ESC.
        while at < len(body):
            if body[at] != 27:
                ground.append(body[at])
                at += 1
                continue
            self.decode(ground)
            ground = bytearray()
            at = self.sequence(body, at + 1)
        self.decode(ground)

    def decode(self, ground):
        self.parts += bytes(ground).decode("utf-8", "replace").count("\ufffd") - bytes(ground).count(b"\xef\xbf\xbd")

    def skip(self, body, at, ends):
        """Behind the byte that ends a string or a title, or at the ESC that does."""
        while at < len(body) and body[at] != 27:
            at += 1
            if body[at - 1] in ends:
                break
        return at

    def sequence(self, body, at):
        """Behind the sequence whose ESC was before."""
        text = b""
        while at < len(body):
            byte = body[at : at + 1]
            at += 1
            if byte == b"\x1b":
                return at - 1
            if byte in b"\x18\x1a":
                return at
            if not b" " <= byte <= b"~":
                continue
            if not text and byte in b"PX]^_":
                return self.skip(body, at, (7, 24, 26))
            if (text[:1] == b"[" and byte >= b"@") or (text[:1] != b"[" and byte >= b"0" and text + byte != b"["):
                self.finish(text, byte)
                return self.skip(body, at, (7, 24, 26)) if text + byte == b"k" else at
            text += byte
        return at

    def finish(self, text, last):
        names = today_of_control(text[1:], last) if text[:1] == b"[" else today_of_escape(text, last)
        for name in names:
            self.counts[name] = self.counts.get(name, 0) + 1


class Reader:
    """Reads the bytes of a body: what is pending, whether it is a string, and the mode."""

    def __init__(self, profile):
        self.profile, self.vt52 = profile, False
        self.pending, self.string = None, False
        self.counts = {}

    def count(self, names):
        for name in names:
            self.counts[name] = self.counts.get(name, 0) + 1

    def take(self, byte):
        if byte == 27:
            self.pending, self.string = b"", False
        elif self.string:
            if byte in (7, 24, 26):
                self.pending, self.string = None, False
        elif self.pending is not None:
            if byte in (24, 26):
                self.pending = None
            elif 32 <= byte <= 126:
                self.join(bytes([byte]))

    def join(self, last):
        """A byte of 32 to 126 that follows an ESC."""
        whole = self.pending + last
        if self.vt52:
            self.join_vt52(whole)
        elif whole[:1] == b"[":
            if len(whole) > 1 and last >= b"@":
                self.pending = None
                self.finish_control(whole[1:-1], last)
            else:
                self.pending = whole
        elif last < b"0":
            self.pending = whole
        elif len(whole) == 1 and last in b"PX]^_":
            self.pending, self.string = whole, True
        else:
            self.pending = None
            self.count(names_of_escape(whole[:-1], last))

    def join_vt52(self, whole):
        if whole[:1] == b"Y" and len(whole) < 3:
            self.pending = whole
            return
        self.pending = None
        if whole == b"<":
            self.vt52 = False
        elif whole[:1] != b"Y" and whole.decode() not in VT52 and whole != b"\\":
            self.count([b"ESC " + whole])

    def finish_control(self, text, last):
        self.count(names_of_control(self.profile, text, last))
        if last == b"l" and re.fullmatch(rb"\?[0-9;]*", text):
            if 2 in [number(piece) for piece in text[1:].split(b";")[:16]]:
                self.vt52 = True


def facts(line):
    size, term = size_of(line), value(b"TERM", line)
    if line.startswith(OPENING):
        yield b"started " + shown(line[len(OPENING) :].split(b" [")[0])
    if term is not None:
        yield b"term " + shown(term)
    if size:
        yield b"size " + b"x".join(size)


def played_size(line, asked=None):
    """The columns and lines of a terminal of today that plays a recording, those that are asked for, if they are."""
    size = size_of(line)
    given = [int(text) for text in size] if size else [0, 0]
    usual = given if 2 <= given[0] <= 1000 and 1 <= given[1] <= 500 else [80, 24]
    return list(asked or usual)


def parts(profile, line, trailer, asked=None):
    """The notes that are told to whoever plays the recording, by their names."""
    size, term = size_of(line), value(b"TERM", line)
    told = {}
    if profile == "xterm":
        played = played_size(line, asked)
        other = size and [int(text) for text in size] != played
    else:
        played, other = [80, 24], size and size != [b"80", b"24"]
    if other:
        told["size"] = b"size: recorded at " + b"x".join(size) + b", played at %dx%d" % tuple(played)
    if term is not None and not (today_passes(term) if profile == "xterm" else passes(profile, term)):
        told["term"] = b"term: recorded under " + shown(term) + b", played as " + profile.encode()
    sessions = sum(text.startswith(OPENING) for text in trailer.split(b"\n"))
    if sessions:
        told["sessions"] = b"sessions: %d more in the trailer" % sessions
    return told


def note_line(profile, header, trailer, asked=None):
    """The line that is told to whoever plays the recording, or nothing."""
    told = parts(profile, header.removesuffix(b"\n"), trailer, asked)
    text = b"; ".join(told.values())
    if len(text) > 200:
        text = text[:200] + b".."
    advice = b", or try --profile xterm" if profile != "xterm" and told.keys() & {"size", "term"} else b""
    return b"typetool: note: " + text + b" (see typetool check" + advice + b")\n" if told else b""


def notes(profile, line, body, trailer, asked=None):
    told = parts(profile, line, trailer, asked)
    if not line.startswith(OPENING):
        yield b"note header: not script's"
    for name in ("size", "term"):
        if name in told:
            yield b"note " + told[name]
    high = sum(byte >= 128 for byte in body)
    if profile == "xterm":
        broken = Today(body).parts
        if broken:
            yield b"note bytes: %d parts that are no UTF-8" % broken
    elif high:
        yield b"note bytes: %d from 128 on: this terminal has no UTF-8" % high
    if trailer and not re.fullmatch(rb"\nScript done on [^\n]*\n?", trailer):
        yield b"note trailer: %d bytes behind the last chunk are never shown" % len(trailer)
    if "sessions" in told:
        yield b"note " + told["sessions"]


def unplayed(profile, body):
    reader = Today(body) if profile == "xterm" else Reader(profile)
    for byte in body if profile != "xterm" else b"":
        reader.take(byte)
    for name in sorted(reader.counts):
        yield b"unplayed %d " % reader.counts[name] + name


def check(profile, header, body, trailer, asked=None):
    """The lines, and the status. For xterm `asked` is the size that is asked for, if one is."""
    line = header.removesuffix(b"\n")
    told = [*notes(profile, line, body, trailer, asked), *unplayed(profile, body)]
    doubts = (b"note size", b"note term", b"note bytes", b"unplayed ")
    advised = profile != "xterm" and any(text.startswith(doubts) for text in told)
    advice = [b"try --profile xterm"] if advised else []
    return b"".join(text + b"\n" for text in [*facts(line), *told, *advice]), 1 if told else 0


def cut(script, timing):
    """Header, body and trailer of a pair that has no fault."""
    start = script.index(b"\n") + 1
    lengths = [int(line.split()[1]) for line in timing.split(b"\n") if line.split()]
    end = start + sum(lengths)
    return script[:start], script[start:end], script[end:]


def main():
    profile, script, timing = sys.argv[1:]
    with open(script, "rb") as first, open(timing, "rb") as second:
        text, status = check(profile, *cut(first.read(), second.read()))
    sys.stdout.buffer.write(text)
    return status


if __name__ == "__main__":
    sys.exit(main())
