"""A plain reading of what `redact` makes of a recording: the new typescript, and the status.

It is written from docs/COMMANDS.md alone and shares nothing with the program.
"""
import re

import check_reader
import plain_reader


def without(script, text):
    """A typescript with * for each byte of the text, wherever it stands, and how often it does."""
    places = [at for at in range(len(script)) if script.startswith(text, at)]
    covered = {at + n for at in places for n in range(len(text))}
    return bytes(42 if at in covered else byte for at, byte in enumerate(script)), len(places)


def status(old, new, count, lines):
    """Of two recordings, of how often the text stood in the old one, and of its find lines in the new one."""
    sizes = [check_reader.size_of(recording[0].removesuffix(b"\n")) for recording in (old, new)]
    usual = not new[2] or re.fullmatch(rb"\nScript done on [^\n]*\n?", new[2])
    return 0 if count > 0 and not lines and sizes[0] == sizes[1] and usual else 1


def redacted(recording, text):
    """The new pair, and the recording that it is, of a text that has a character and no *; how often it stood there."""
    script, timing = plain_reader.files_of(recording)
    script, count = without(script, text.encode())
    return script, timing, plain_reader.read(script, timing), count
