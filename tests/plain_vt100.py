"""A plain reading of a VT100: what bytes leave of its screen, glyphs without renditions, and nothing of its replies.

It is written from docs/TERMINAL.md alone and shares nothing with the program.
"""
import re
from dataclasses import dataclass, field

from plain_screen import BOTTOM, COLUMNS, DOUBLE, LINES, SINGLE, TOP, character

CHECKERBOARD = 2
SPACES = (0, 32)
WELL_FORMED = re.compile(rb"\??[0-9;]*")
SIZES = {"3": TOP, "4": BOTTOM, "5": SINGLE, "6": DOUBLE}


@dataclass
class Row:
    """A line's size, and its glyphs."""

    size: int = SINGLE
    glyphs: list = field(default_factory=lambda: [32] * COLUMNS)


@dataclass(frozen=True)
class Saved:
    """What DECSC saves of what is shown; as it stands, what DECRC takes without a save."""

    line: int = 1
    column: int = 1
    wrap: bool = False
    origin: bool = False
    sets: tuple = ("B", "B")
    invoked: int = 0


@dataclass
class State:
    """All that RIS brings back to its start."""

    rows: list = field(default_factory=lambda: [Row() for _ in range(LINES)])
    columns: int = 80
    line: int = 1
    column: int = 1
    wrap: bool = False
    top: int = 1
    bottom: int = LINES
    stops: set = field(default_factory=lambda: set(range(9, COLUMNS + 1, 8)))
    vt52: bool = False
    graphics: bool = False
    origin: bool = False
    autowrap: bool = True
    newline: bool = False
    insert: bool = False
    sets: tuple = ("B", "B")
    invoked: int = 0
    saved: Saved = Saved()


class Terminal:
    """A VT100, or a VT102 if it edits. Lines and columns are counted from 1, the items of lists from 0."""

    def __init__(self, edits=False):
        self.edits = edits
        self.state = State()
        self.pending = b""
        self.pending_vt52 = False

    # What it shows.

    def margin(self, row):
        return self.state.columns // (1 if row.size == SINGLE else 2)

    def row_text(self, row):
        """A row as the plain print has it."""
        glyphs = row.glyphs[: self.margin(row)]
        while glyphs and glyphs[-1] in SPACES:
            glyphs.pop()
        return "".join(map(character, glyphs))

    # Bytes.

    def feed(self, data):
        for byte in data:
            self.step(byte)

    def step(self, byte):
        """One byte, by what is pending."""
        begun, self.pending = self.pending, b""
        if byte == 0x1B:
            self.pending, self.pending_vt52 = b"\x1b", self.state.vt52
        elif not begun:
            self.on_ground(byte)
        elif byte in (0x18, 0x1A):
            self.put(CHECKERBOARD)
        elif not self.pending_vt52 and begun[1:2] and begun[1:2] in b"PX]^_":
            self.pending = b"" if byte == 0x07 else begun
        elif 0x20 <= byte < 0x7F:
            self.joined(begun + bytes([byte]))
        else:
            self.pending = begun
            if byte < 0x20:
                self.control(byte)

    def on_ground(self, byte):
        if 0x20 <= byte < 0x7F:
            self.put(self.in_set(byte))
        elif byte > 0x7F:
            self.put(CHECKERBOARD)
        elif byte < 0x20:
            self.control(byte)

    def joined(self, text):
        """A sequence with one more byte, by the mode at its ESC."""
        if self.pending_vt52:
            whole = len(text) == (4 if text[1:2] == b"Y" else 2)
        elif text[1:2] == b"[":
            whole = len(text) > 2 and text[-1] >= 0x40
        else:
            whole = text[-1] >= 0x30 and text[1:] not in (b"P", b"X", b"]", b"^", b"_")
        if whole:
            self.ended(text[1:-1], chr(text[-1]))
        else:
            self.pending = text

    def ended(self, text, final):
        """A sequence that has come to its final: what stood between ESC and it."""
        if self.pending_vt52:
            self.vt52(text, final)
        elif text[:1] != b"[":
            self.escape(text.decode(), final)
        elif WELL_FORMED.fullmatch(text[1:]):
            private = text[1:2] == b"?"
            pieces = text[2 if private else 1 :].split(b";")
            numbers = [min(int(piece or b"0"), 9999) for piece in pieces[:16]]
            if not private:
                self.sequence(final, numbers)
            elif final in "hl":
                for number in numbers:
                    self.private_mode(number, final == "h")

    # Characters.

    def in_set(self, byte):
        """The glyph of a byte, by the set in use."""
        state = self.state
        chosen = state.sets[state.invoked] if not state.vt52 else "0" if state.graphics else "B"
        if chosen == "0" and byte >= 95:
            return byte - 95
        return 30 if chosen == "A" and byte == 35 else byte

    def put(self, glyph):
        state = self.state
        if state.wrap:
            self.wrapped()
        row = self.row()
        at, margin = state.column - 1, self.margin(row)
        if state.insert:
            row.glyphs[at + 1 : margin] = row.glyphs[at : margin - 1]
        row.glyphs[at] = glyph
        if state.column == margin:
            state.wrap = state.autowrap
        else:
            state.column += 1

    def wrapped(self):
        self.to_column(1)
        self.index()

    # Rows.

    def row(self):
        return self.state.rows[self.state.line - 1]

    def scroll(self, top, bottom, count):
        """The rows from line to line move up by a count, down where it is below zero."""
        rows, height = self.state.rows, bottom - top + 1
        count = max(-height, min(count, height))
        come, kept = [Row() for _ in range(abs(count))], rows[top - 1 : bottom]
        rows[top - 1 : bottom] = kept[count:] + come if count >= 0 else come + kept[:count]

    def erase(self, display, part):
        """The cells of a part of the line or of the display; lines that it erases whole become single."""
        state = self.state
        was = self.row().size
        for line, row in enumerate(state.rows, 1):
            if line == state.line:
                first = state.column if part == 0 else 1
                last = state.column if part == 1 else COLUMNS
            elif display and (part == 2 or (line > state.line if part == 0 else line < state.line)):
                first, last = 1, COLUMNS
            else:
                continue
            if display and first == 1 and last >= self.margin(row):
                row.size = SINGLE
            row.glyphs[first - 1 : last] = [32] * (last - first + 1)
        if self.row().size != was:
            state.wrap = False

    def resize(self, size):
        row = self.row()
        if row.size == SINGLE and size != SINGLE:
            row.glyphs[self.state.columns // 2 :] = [32] * (COLUMNS - self.state.columns // 2)
        row.size = size
        self.to_column(self.state.column)

    # Places.

    def to_column(self, column):
        self.state.wrap = False
        self.state.column = max(1, min(column, self.margin(self.row())))

    def to_line(self, line):
        self.state.line = line
        self.to_column(self.state.column)

    def position(self, line, column):
        """CUP, HVP and VT52's direct cursor address."""
        state = self.state
        state.line = min(state.top - 1 + line, state.bottom) if state.origin else min(line, LINES)
        self.to_column(column)

    def home(self):
        self.state.line = self.state.top if self.state.origin else 1
        self.to_column(1)

    def up(self, count):
        state = self.state
        self.to_line(max(state.line - count, state.top if state.line >= state.top else 1))

    def down(self, count):
        state = self.state
        self.to_line(min(state.line + count, state.bottom if state.line <= state.bottom else LINES))

    def index(self):
        state = self.state
        if state.line == state.bottom:
            self.scroll(state.top, state.bottom, 1)
        self.to_line(state.line if state.line in (state.bottom, LINES) else state.line + 1)

    def reverse_index(self):
        state = self.state
        if state.line == state.top:
            self.scroll(state.top, state.bottom, -1)
        self.to_line(state.line if state.line in (state.top, 1) else state.line - 1)

    def tab(self):
        state = self.state
        margin = self.margin(self.row())
        self.to_column(min([stop for stop in state.stops if stop > state.column], default=margin))

    # Controls and escape sequences.

    def control(self, byte):
        state = self.state
        if byte == 8:
            self.to_column(state.column - 1)
        elif byte == 9:
            self.tab()
        elif 10 <= byte <= 12:
            if state.newline:
                self.to_column(1)
            self.index()
        elif byte == 13:
            self.to_column(1)
        elif byte in (14, 15) and not state.vt52:
            state.invoked = 15 - byte

    def escape(self, between, final):
        state = self.state
        if between in ("(", ")") and final in "AB012":
            sets = list(state.sets)
            sets["()".index(between)] = {"1": "B", "2": "0"}.get(final, final)
            state.sets = tuple(sets)
        elif between == "#" and final in SIZES:
            self.resize(SIZES[final])
        elif between == "#" and final == "8":
            self.align()
        elif not between and final == "D":
            self.index()
        elif not between and final == "E":
            self.wrapped()
        elif not between and final == "M":
            self.reverse_index()
        elif not between and final == "H":
            state.stops.add(state.column)
        elif not between and final == "c":
            self.reset()
        elif not between and final == "7":
            state.saved = Saved(state.line, state.column, state.wrap, state.origin, state.sets, state.invoked)
        elif not between and final == "8":
            self.restore()

    def reset(self):
        self.state = State()

    def align(self):
        for row in self.state.rows:
            row.size = SINGLE
            row.glyphs[: self.state.columns] = [69] * self.state.columns
        self.state.wrap = False

    def restore(self):
        state, saved = self.state, self.state.saved
        state.origin, state.sets, state.invoked = saved.origin, saved.sets, saved.invoked
        state.line = max(state.top, min(saved.line, state.bottom)) if saved.origin else saved.line
        self.to_column(saved.column)
        state.wrap = saved.wrap and state.autowrap and state.column == self.margin(self.row())

    # Control sequences, and those of VT52 mode.

    def sequence(self, final, numbers):
        state, first, count = self.state, numbers[0], numbers[0] or 1
        second = (numbers[1:] or [0])[0]
        if final == "A":
            self.up(count)
        elif final == "B":
            self.down(count)
        elif final in "CD":
            self.to_column(state.column + (count if final == "C" else -count))
        elif final in "Hf":
            self.position(count, second or 1)
        elif final in "JK" and first <= 2:
            self.erase(final == "J", first)
        elif final in "LM" and self.edits and state.top <= state.line <= state.bottom:
            self.scroll(state.line, state.bottom, count if final == "M" else -count)
            self.to_column(1)
        elif final == "P" and self.edits:
            glyphs, at, margin = self.row().glyphs, state.column - 1, self.margin(self.row())
            glyphs[at:margin] = (glyphs[at + count : margin] + [32] * margin)[: margin - at]
        elif final == "r" and count < (second or LINES) <= LINES:
            state.top, state.bottom = count, second or LINES
            self.home()
        elif final == "g" and first in (0, 3):
            state.stops = state.stops - {state.column} if first == 0 else set()
        elif final in "hl":
            state.newline = final == "h" if 20 in numbers else state.newline
            state.insert = final == "h" if 4 in numbers and self.edits else state.insert

    def private_mode(self, number, on):
        state = self.state
        if number == 2 and not on:
            state.vt52, state.graphics = True, False
        elif number == 3:
            self.set_columns(132 if on else 80)
        elif number == 6:
            state.origin = on
            self.home()
        elif number == 7:
            state.autowrap = on
            state.wrap = state.wrap and on

    def set_columns(self, columns):
        state = self.state
        state.columns, state.rows, state.top, state.bottom = columns, [Row() for _ in range(LINES)], 1, LINES
        self.home()

    def vt52(self, text, final):
        if text:
            self.position(text[1] - 31, ord(final) - 31)
        elif final in "ABCD":
            self.sequence(final, [1])
        elif final in "FG":
            self.state.graphics = final == "F"
        elif final == "H":
            self.home()
        elif final == "I":
            self.reverse_index()
        elif final in "JK":
            self.erase(final == "J", 0)
        elif final == "<":
            self.state.vt52 = False
