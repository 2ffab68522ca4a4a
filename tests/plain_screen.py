"""A plain reading of `screen --escaped`: the screen that it draws, cell by cell.

It is written from docs/TERMINAL.md alone and shares nothing with the program.
"""
import re
from dataclasses import dataclass, field

LINES = 24
COLUMNS = 132
SINGLE, DOUBLE, TOP, BOTTOM = range(4)
BOLD, UNDERSCORE, BLINK, REVERSE = 1, 2, 4, 8
BLANK = (32, 0)
SIZES = {b"3": TOP, b"4": BOTTOM, b"6": DOUBLE}
RENDITIONS = {b"1": BOLD, b"4": UNDERSCORE, b"5": BLINK, b"7": REVERSE}
SPECIAL = "\u0020\u25c6\u2592\u2409\u240c\u240d\u240a\u00b0\u00b1\u2424\u240b\u2518\u2510\u250c\u2514\u253c"
SPECIAL += "\u23ba\u23bb\u2500\u23bc\u23bd\u251c\u2524\u2534\u252c\u2502\u2264\u2265\u03c0\u2260\u00a3\u00b7"
# What the text is made of: a place, a line's size, a rendition, another sequence, SO or SI, a character.
PIECES = re.compile(
    rb"\x1b\[(?P<place>[0-9]+;[0-9]+)H|\x1b#(?P<size>[346])|\x1b\[0(?P<rendition>(;[1457])*)m"
    rb"|\x1b(\[\?[0-9]+[hl]|\)0)|(?P<shift>[\x0e\x0f])|(?P<byte>[ -~])"
)


@dataclass
class Row:
    """A line's size, and its cells as far as they were drawn: glyph and rendition."""

    size: int = SINGLE
    cells: list = field(default_factory=list)

    def inked(self):
        """The cells up to the last that isn't blank."""
        end = len(self.cells)
        while end and self.cells[end - 1] == BLANK:
            end -= 1
        return self.cells[:end]

    def key(self):
        """What tells rows apart: the size and all cells."""
        return self.size, tuple(self.inked())


@dataclass
class Screen:
    rows: list
    wide: bool
    reversed: bool
    line: int
    column: int


def character(glyph):
    return SPECIAL[glyph] if glyph < 32 else chr(glyph)


def drawn(escaped):
    """The screen that an escaped print draws."""
    rows, row, special, rendition, place = [Row() for _ in range(LINES)], None, False, 0, (1, 1)
    for piece in PIECES.finditer(escaped):
        said = piece[piece.lastgroup] if piece.lastgroup else b""
        if piece.lastgroup == "place":
            place = tuple(map(int, said.split(b";")))
            row = rows[place[0] - 1]
        elif piece.lastgroup == "size":
            row.size = SIZES[said]
        elif piece.lastgroup == "rendition":
            rendition = sum(RENDITIONS[name] for name in said.split(b";") if name)
        elif piece.lastgroup == "shift":
            special = said == b"\x0e"
        elif piece.lastgroup == "byte":
            row.cells.append((said[0] - 95 if special and said[0] >= 95 else said[0], rendition))
    opening = escaped[: escaped.index(b"\x1b[?7l")]
    return Screen(rows, b"\x1b[?3h" in opening, b"\x1b[?5h" in opening, *place)


def margin(screen, row):
    """The right margin of a row."""
    return (COLUMNS if screen.wide else 80) // (1 if row.size == SINGLE else 2)


def text_of(screen, row):
    """The characters of a row up to its right margin."""
    return "".join(character(glyph) for glyph, _ in row.cells).ljust(margin(screen, row))


def plain_text(screen):
    """The plain print."""
    return "".join(text_of(screen, row).rstrip(" ") + "\n" for row in screen.rows)
