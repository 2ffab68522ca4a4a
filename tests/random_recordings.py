"""Random recordings: text that comes again, is moved, drawn over and scrolled, sequences of all kinds and of none,
under headers and trailers of script(1) and others.
"""

WORDS = [b"err", b"er", b"r", b"ab", b"aa", b"a", b" ", b"  ", b"or", b"x" * 39, b"x" * 80, b"err: no such file", b"-"]

# What moves, scrolls, erases and draws on a VT100.
MOVES = [
    b"\r",
    b"\n",
    b"\r\n",
    b"\b",
    b"\t",
    b"\x1b[A",
    b"\x1b[2B",
    b"\x1b[C",
    b"\x1b[3D",
    b"\x1b[H",
    b"\x1b[24;1H",
    b"\x1bM",
    b"\x1bD",
    b"\x1bE",
    b"\x1b[2;5r",
    b"\x1b[r",
    b"\x1b7",
    b"\x1b8",
    b"\x1b[?6h",
    b"\x1b[?6l",
    b"\x1b[?7l",
    b"\x1b[?7h",
]
DRAWS = [
    b"\x1b[J",
    b"\x1b[1J",
    b"\x1b[2J",
    b"\x1b[K",
    b"\x1b[1K",
    b"\x1b[2K",
    b"\x1b[1m",
    b"\x1b[0;7m",
    b"\x1b[m",
    b"\x1b(0",
    b"\x1b(B",
    b"\x0e",
    b"\x0f",
    b"\x1b)0",
    b"\x1b#3",
    b"\x1b#4",
    b"\x1b#5",
    b"\x1b#6",
    b"\x1b[?3h",
    b"\x1b[?3l",
    b"\x1b[?5h",
    b"\x1b[?5l",
    b"\x1b#8",
    b"\x1b[L",
    b"\x1b[M",
    b"\x1b[2P",
    b"\x1b[4h",
    b"\x1b[4l",
    b"\x1bc",
    b"qqx",
    b"`a",
]

# What a VT100 has no row for, or what is no sequence.
UNKNOWN = [
    b"\x1b[Q",
    b"\x1b[3d",
    b"\x1b[?1049h",
    b"\x1b[?25l",
    b"\x1b[?2004;1049h",
    b"\x1b[h",
    b"\x1b[20;4;2h",
    b"\x1b[>c",
    b"\x1b[!p",
    b"\x1b[1;2;x",
    b"\x1b[5",
    b"\x1bN",
    b"\x1b\\",
    b"\x1b(X",
    b"\x1b*B",
    b"\x1b%G",
    b"\x1b#7",
    b"\x1b (B",
    b"\x1b]0;title\x07",
    b"\x1bP1$r\x1b\\",
    b"\x1bXno\x18",
    b"\xc3\xa9",
    b"\x80",
    b"\x7f",
    b"\x1b[?1;2;3;4;5;6;7;8;9;0;1;2;3;4;5;6;77l",
    b"\x1b[99999h",
    b"\x1b[12h",
    b"\x1b[?12h",
    b"\x1b[2l",
    b"\x1b[?00025h",
    b"\x1b[0?1h",
    b"\x1b\x1b[Z",
    b"\x1b[\x18A",
]
VT52 = [
    b"\x1b[?2l",
    b"\x1bA",
    b"\x1bY&*",
    b"\x1bF",
    b"\x1bG",
    b"\x1bE",
    b"\x1b#",
    b"\x1b[",
    b"\x1b<",
    b"\x1bY",
    b"\x1bJ",
]
STRAY = [b"\x1b", b"\x1b[", b"\x1b[?", b"\x18", b"\x1a", b"\x00", b"\x05", b"\x07"]

HEADERS = [
    b"Script started on 2026-11-23 10:00:00+00:00",
    b"Script started on 2026-11-23 10:00:00+00:00 [",
    b'Script started on 2026-11-23 [COMMAND="vi TERM=" TERM="',
    b"Script started on \x1b\x80 [<not executed on terminal>]",
    b"Script started",
    b"Script started ",
    b"",
    b"$ ls",
]
TERMS = [b"vt100", b"vt102", b"vt52", b"vt100-am", b"vt102-nsgr", b"vt52-x", b"xterm", b"vt1000", b"", b"vt\x07\xe9"]
SIZES = [(b"80", b"24"), (b"132", b"24"), (b"080", b"24"), (b"0", b"24"), (b"", b"24"), (b"200", b"50"), (b"8x", b"24")]
TRAILERS = [
    b"",
    b"\nScript done on 2026-11-23 10:00:01+00:00\n",
    b"\nScript done on 2026-11-23",
    b"Script done on 2026-11-23\n",
    b"\nScript done on 2026\n\n",
    b"\nScript done on 2026\nScript started on 2026\nbytes\nScript started on 2027",
    b"Script started on 2026\n",
    b"x",
]


def header_of(rng):
    """A header line: script's own most often, with the values that script(1) writes there."""
    values = []
    if rng.random() < 0.7:
        values.append(b'TERM="%s"' % rng.choice(TERMS))
    if rng.random() < 0.5:
        values.append(b'TTY="/dev/pts/1"')
    if rng.random() < 0.7:
        columns, lines = rng.choice(SIZES)
        values += [b'COLUMNS="%s"' % columns, b'LINES="%s"' % lines]
    if rng.random() < 0.1:
        values.append(b"<not executed on terminal>")
    if rng.random() < 0.1:
        rng.shuffle(values)
    told = b" ".join(values) + rng.choice([b"]", b"]", b"]", b""])
    return rng.choice(HEADERS[:3] * 4 + HEADERS) + rng.choice([b"", b" ["]) + told + b"\n"


def pieces_of(rng, kinds):
    """Some bytes of these kinds, now and then with one dropped, so that sequences break."""
    text = b"".join(rng.choice(rng.choice(kinds)) for _ in range(rng.randint(0, 8)))
    if text and rng.random() < 0.1:
        at = rng.randrange(len(text))
        text = text[:at] + text[at + 1 :]
    return text


def kinds_of(rng):
    """What a recording is made of."""
    return rng.choice(
        [[WORDS, WORDS, MOVES], [WORDS, MOVES, DRAWS], [WORDS, MOVES, DRAWS, UNKNOWN], [UNKNOWN, WORDS, VT52, STRAY]]
    )


def recording(rng):
    """Header, chunks and trailer: each chunk a delay in microseconds and bytes."""
    kinds = kinds_of(rng)
    chunks = [(rng.choice([0, 0, 1, 250000, 10**6]), pieces_of(rng, kinds)) for _ in range(rng.randint(0, 10))]
    return header_of(rng), chunks, rng.choice(TRAILERS)
