"""Random streams for the terminal of today: text, UTF-8 whole and broken, and sequences of every table and of none.

The characters are some whose width every edition of Unicode since 14 tells alike, as plain_today.py has an older one
than the program.
"""

WORDS = [b"a", b"ab", b"x" * 5, b"err: no", b" ", b"   ", b"-", b"0123456789ab", b"qqx`a~", b"#_", b"x" * 40]
NARROW = [
    "é",
    "─",
    "│",
    "€",
    "ж",
    "ｱ",
    "ไ",
    "\u00a0",
    "\u00ad",
    "\u0903",
    "\u093e",
    "\uff9e",
    "\ufdd0",
    "\ufffd",
    "\u2d7f",
]
WIDE = ["日", "本", "語", "한", "Ａ", "😀", "🚀", "\u115f", "\u3000", "\U0002f800"]
MARKS = ["\u0301", "\u0323", "\u0331", "\u0e31", "\u20dd", "\u200d", "\ufe0f", "\u1160", "\u0605", "\U000e0100"]
UNSHOWN = ["\u0080", "\u0085", "\u009b", "\u009f"]
BROKEN = [
    b"\x80",
    b"\xbf\xbf",
    b"\xc0\xaf",
    b"\xc1",
    b"\xc3",
    b"\xe0\x80",
    b"\xe0\xa0",
    b"\xe3",
    b"\xe3\x81",
    b"\xe3\x81\xe3\x81\x82",
    b"\xed\xa0\x80",
    b"\xf0\x9f",
    b"\xf0\x9f\x98",
    b"\xf0\x80\x80",
    b"\xf4\x90\x80\x80",
    b"\xf5",
    b"\xff",
]
LINES = [b"\r\n", b"\n", b"\r", b"\b", b"\t", b"\r\n", b"\x0b", b"\x0c", b"\x0e", b"\x0f"]
CONTROLS = [bytes([byte]) for byte in range(32)] + [b"\x7f"]
ESCAPES = [b"\x1b" + final for final in (b"D", b"E", b"M", b"H", b"Z", b"7", b"8", b"7", b"8", b"=", b">", b"c", b"#8")]
SETS = [b"\x1b" + kind + final for kind in (b"(", b")") for final in (b"0", b"A", b"B", b"1", b"2", b"K")]
FINALS = b"ABCDEFGadefHIZJKX@PLMSTbgrsucnxHHJKX@PLMSTbbr`"
PRIVATE = [1, 5, 6, 7, 25, 47, 1047, 1048, 1049, 6, 7, 1049, 3, 2004, 1000]
NUMBERS = [b"", b"", b"", b"0", b"1", b"1", b"2", b"2", b"3", b"4", b"5", b"7", b"9", b"12", b"20", b"99", b"65537"]
COLOURS = [b"38;5;%d", b"48;5;%d", b"38;2;1;2;%d", b"48;2;9;%d;255", b"58;5;%d", b"48;2;%d", b"38;5", b"48;7;%d", b"38"]
STRINGS = [
    b"\x1b]0;title\x07",
    b"\x1b]8;;x\x1b\\",
    b"\x1bP1$r\x1b\\",
    b"\x1bXno\x18",
    b"\x1b_a\x00b\n\x1a",
    b"\x1b^\xe6\x97\xa5\x07",
    b"\x1bk",
    b"\x1bkname\x1b\\",
    b"\x1bka\nb\xc3\x18",
    b"\x1b]0;cut",
]
UNKNOWN = [
    b"\x1b[>c",
    b"\x1b[!p",
    b"\x1b[1:2H",
    b"\x1b[38:5:1m",
    b"\x1b[?J",
    b"\x1b[?2m",
    b"\x1b[1;2;x",
    b"\x1b[ q",
    b"\x1b[0?1h",
    b"\x1b[12h",
    b"\x1b[q",
    b"\x1b[3q",
    b"\x1b#6",
    b"\x1b%G",
    b"\x1b (B",
    b"\x1bN",
    b"\x1b\\",
    b"\x1b<",
    b"\x1b[",
    b"\x1b[?",
    b"\x1b[1",
    b"\x1b",
    b"\x1b(",
    b"\x1b[\x18A",
    b"\x1b[2\nC",
    b"\x1b[1;2;3;4;5;6;7;8;9;0;1;2;3;4;5;6;7m",
]


def characters(rng):
    kinds = [NARROW, WIDE, WIDE, MARKS, MARKS, UNSHOWN] if rng.random() < 0.5 else [WIDE, MARKS]
    return "".join(rng.choice(rng.choice(kinds)) for _ in range(rng.randint(1, 5))).encode()


def sequence(rng):
    """A control sequence with a row of its own, and some parameters."""
    numbers = b";".join(rng.choice(NUMBERS) for _ in range(rng.choice([1, 1, 1, 2, 2, 3])))
    return b"\x1b[" + numbers + bytes([rng.choice(FINALS)])


def rendition(rng):
    told = []
    for _ in range(rng.randint(0, 4)):
        number = rng.choice([rng.randrange(0, 50), rng.randrange(90, 110), rng.choice([0, 1, 7, 22, 41, 300])])
        told.append(rng.choice([b"%d" % number] * 3 + [rng.choice(COLOURS).replace(b"%d", b"%d" % rng.randrange(260))]))
    return b"\x1b[" + b";".join(told) + b"m"


def modes(rng):
    final = rng.choice([b"h", b"h", b"l"])
    if rng.random() < 0.3:
        return b"\x1b[" + rng.choice([b"4", b"20", b"4;20", b"7"]) + final
    return b"\x1b[?" + b";".join(b"%d" % rng.choice(PRIVATE) for _ in range(rng.choice([1, 1, 1, 2]))) + final


def piece(rng):
    kind = rng.choice(
        [WORDS, WORDS, characters, characters, LINES, sequence, sequence, sequence, rendition, modes, None]
    )
    if kind is None:
        kind = rng.choice([BROKEN, BROKEN, CONTROLS, ESCAPES, ESCAPES, SETS, STRINGS, UNKNOWN])
    return kind(rng) if callable(kind) else rng.choice(kind)


def stream(rng):
    """Bytes in some pieces, now and then with one byte dropped or another one in its place, so that sequences break."""
    text = b"".join(piece(rng) for _ in range(rng.randint(0, 40)))
    for _ in range(rng.choice([0, 0, 0, 1, 3])):
        if text:
            at = rng.randrange(len(text))
            text = text[:at] + rng.choice([b"", bytes([rng.randrange(256)])]) + text[at + 1 :]
    return text


def size(rng):
    """Columns and lines, small ones most often, so that ends are met."""
    return rng.choice([2, 3, 4, 5, 7, 8, 9, 10, 12, 12, 16, 20, 40, 80]), rng.choice([1, 2, 3, 4, 5, 6, 6, 8, 24])
