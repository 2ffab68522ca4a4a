"""Pieces of real recordings, and what can happen to the bytes of their files."""
import glob
import os

import plain_reader as plain

here = os.path.dirname(os.path.abspath(__file__))


def recordings():
    """The real recordings."""
    found = []
    for script in sorted(
        glob.glob(os.path.join(here, "recordings", "*.script"))
        + glob.glob(os.path.join(here, "..", "examples", "*.script"))
    ):
        with open(script, "rb") as one, open(script[:-7] + ".timing", "rb") as two:
            header, chunks, trailer = plain.read(one.read(), two.read())
        found.append((header, chunks, trailer))
    return found


def piece(rng, whole):
    """A recording of some chunks in turn of a real one."""
    header, chunks, trailer = rng.choice(whole)
    start = rng.randrange(len(chunks))
    return header, chunks[start : start + rng.randint(1, 12)], trailer


def flipped(rng, text):
    out = bytearray(text)
    for _ in range(rng.randint(1, 4)):
        if out:
            out[rng.randrange(len(out))] = rng.choice([rng.randrange(256), 10, 27, 32, 45, 46, 48, 57, 65])
    return bytes(out)


def cut(rng, text):
    return text[: rng.randint(0, len(text))]


def doubled(rng, text):
    start = rng.randint(0, len(text))
    end = rng.randint(start, min(len(text), start + 40))
    return text[:end] + text[start:end] + text[end:]


def dropped(rng, text):
    start = rng.randint(0, len(text))
    return text[:start] + text[start + rng.randint(0, 8) :]


def harmed(rng, script, timing):
    """A pair to which something has happened, most often."""
    for _ in range(rng.randint(0, 3)):
        harm = rng.choice([flipped, cut, doubled, dropped])
        if rng.random() < 0.5:
            script = harm(rng, script)
        else:
            timing = harm(rng, timing)
    return script, timing
