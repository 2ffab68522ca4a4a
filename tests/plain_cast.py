"""A plain reading of what `cast` writes of a recording.

It is written from docs/PICTURES.md alone and shares nothing with the program.
"""
import plain_reader
from plain_picture import DRAWN, runs_of
from plain_screen import BLINK, BOLD, LINES, REVERSE, SINGLE, UNDERSCORE, character

HEADER = '{"version": 2, "width": 80, "height": 24}\n'
NAMES = [(BOLD, ";1"), (UNDERSCORE, ";4"), (BLINK, ";5"), (REVERSE, ";7")]


def columns(screen):
    return 132 if screen.wide else 80


def drawn_row(screen, line):
    """What draws a row."""
    row, reverse = screen.rows[line - 1], REVERSE if screen.reversed else 0
    gap = "" if row.size == SINGLE else " "
    told = f"\x1b[{line};1H\x1b[0m\x1b[2K"
    for kind, glyphs, _ in runs_of(row):
        attributes = (kind & ~DRAWN) ^ reverse
        told += "\x1b[0" + "".join(name for bit, name in NAMES if attributes & bit) + "m"
        told += "".join(character(glyph) + gap for glyph in glyphs)
    if screen.reversed:
        told += "\x1b[0;7m" + " " * (columns(screen) - len(row.inked()) * len(" " + gap))
    return told + "\x1b[0m"


def column(screen):
    """The player's column of the cursor."""
    return screen.column if screen.rows[screen.line - 1].size == SINGLE else 2 * screen.column - 1


def drawn(screen, lines):
    """What draws these rows, and puts the cursor in its place."""
    return "".join(drawn_row(screen, line) for line in lines) + f"\x1b[{screen.line};{column(screen)}H"


def event(due, kind, text):
    said = text.replace("\\", "\\\\").replace('"', '\\"').replace("\x1b", "\\u001b")
    return f'[{due}, "{kind}", "{said}"]\n'


def events(before, after, due):
    """The events of a chunk that makes one screen of another."""
    whole = (before.wide, before.reversed) != (after.wide, after.reversed)
    lines = [n + 1 for n in range(LINES) if whole or before.rows[n].key() != after.rows[n].key()]
    told = event(due, "r", f"{columns(after)}x{LINES}") if before.wide != after.wide else ""
    if lines or (before.line, before.column) != (after.line, after.column):
        told += event(due, "o", drawn(after, lines))
    return told


def cast(screens, dues):
    """The asciicast: of the screens before the first chunk and after each, and of when the chunks are due."""
    return HEADER + "".join(events(*screens[n : n + 2], due) for n, due in enumerate(dues))


def dues_of(chunks):
    """When chunks are due, as seconds are written."""
    moment = 0
    for delay, _ in chunks:
        moment += delay
        yield plain_reader.written(moment).decode()
