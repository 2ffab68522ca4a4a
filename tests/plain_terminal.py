"""A plain terminal of any profile (plain_vt100.py, plain_today.py), all that it keeps, and random recordings for it."""
import pickle

import harm
import plain_today
import plain_vt100
import random_recordings
import random_today

PROFILES = ["vt100", "vt102", "xterm"]
# What finishes a sequence, an address, a string or a character that is pending, and what shows that none is.
PROBES = [b"5;7HX", b"*Y", b"#8", b"\x18Z", b"1mq\x0eq", b"\\P", b"\x07x", b"\xa9y", b"B\r\nz", b"\x1b8w"]
# What leaves a wrap that is pending, one that is saved, a set, a sequence, an address, a title or half a character.
ENDS = [
    b"\x1b[9;999Hx",
    b"\x1b[9;999Hx\x1b7\x1b[H",
    b"\x1b)0\x0e\x1b[9;999Hq",
    b"\x1b",
    b"\x1b[",
    b"\x1b[5;9",
    b"\x1b[?2",
    b"\x1b(",
    b"\x1b]0;a",
    b"\x1b[?2l\x1bY%",
    b"\x1b[?2l\x1bF\x1b<",
    b"\x1bka",
    b"\xe6\x97",
    b"\x1b[4h\x1b[9;5Ha",
]


def flags_of(profile, size):
    """The words that ask for a profile, and for the size of a terminal of today."""
    return ["--profile", profile] + (["--size", f"{size[0]}x{size[1]}"] if size else [])


def size_for(rng, profile):
    """A size for a terminal of today; the others have one of their own."""
    return random_today.size(rng) if profile == "xterm" else None


def bytes_for(rng, profile):
    """Some bytes that do something on a terminal of this profile."""
    if profile == "xterm":
        return random_today.stream(rng)
    kinds = random_recordings.kinds_of(rng)
    return b"".join(random_recordings.pieces_of(rng, kinds) for _ in range(rng.randint(0, 10)))


def recording_for(rng, profile):
    """Header, chunks and trailer: random ones, some of them over pieces of real recordings, some chunks with an end."""
    header, chunks, trailer = random_recordings.recording(rng)
    if profile == "xterm":
        chunks = [(delay, random_today.stream(rng)) for delay, _ in chunks]
    if rng.random() < 0.3:
        _, more, _ = harm.piece(rng, harm.recordings())
        at = rng.randint(0, len(chunks))
        chunks = [*chunks[:at], *more, *chunks[at:]]
    return header, [[delay, text + rng.choice(ENDS) * (rng.random() < 0.3)] for delay, text in chunks], trailer


class Fed:
    """A plain terminal of a profile, by the bytes that it was fed."""

    def __init__(self, profile, size, text):
        self.terminal = (
            plain_today.Terminal(*size) if profile == "xterm" else plain_vt100.Terminal(edits=profile == "vt102")
        )
        self.terminal.feed(text)

    def kept(self):
        """All that it keeps but what is pending. A mode that was never set is one that is reset."""
        fields = dict(vars(self.terminal.state))
        if "modes" in fields:
            fields["modes"] = {name for name, on in fields["modes"].items() if on}
        return fields

    def seen(self, probes):
        """All that it keeps, and the same behind each probe, since what is pending shows only then."""
        packed, told = pickle.dumps(self.terminal), [self.kept()]
        for probe in probes:
            self.terminal = pickle.loads(packed)
            self.terminal.feed(probe)
            told.append(self.kept())
        self.terminal = pickle.loads(packed)
        return told
