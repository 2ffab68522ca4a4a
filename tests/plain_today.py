"""A plain reading of the terminal of today: what bytes leave of a terminal of a size.

It is written from docs/TODAY.md alone and shares nothing with the program. Widths are told by Python's own
unicodedata. Its Unicode is older than the program's: beside the program's tables (Unicode 18) Python 3.11 (Unicode 14)
tells 1,514 characters otherwise, of which Unicode has all given or changed since: new marks and ideographs, and the
signs U+2630, U+268A, U+4DC0, U+1D300 and those behind them, which have become wide. `width` says what is taken from
where.
"""
import bisect
import re
import unicodedata
from dataclasses import dataclass, field, replace

BOLD, FAINT, ITALIC, UNDERSCORE, BLINK, REVERSE, CONCEALED, CROSSED = (1 << n for n in range(8))
SPECIAL = " ◆▒␉␌␍␊°±␤␋┘┐┌└┼⎺⎻─⎼⎽├┤┴┬│≤≥π≠£·"
REPLACEMENT = "\ufffd"
WELL_FORMED = re.compile(rb"\??[0-9;]*")
# Which bytes may follow the first of a character: those that are narrower than 80 to BF, and how many follow in all.
SECOND = {0xE0: (0xA0, 0xBF), 0xED: (0x80, 0x9F), 0xF0: (0x90, 0xBF), 0xF4: (0x80, 0x8F)}

# First and last of the default-ignorable characters (DerivedCoreProperties) and of the vowel and trailing jamo.
IGNORABLE = [
    (0x034F, 0x034F),
    (0x061C, 0x061C),
    (0x1160, 0x11FF),
    (0x17B4, 0x17B5),
    (0x180B, 0x180F),
    (0x200B, 0x200F),
    (0x202A, 0x202E),
    (0x2060, 0x206F),
    (0x3164, 0x3164),
    (0xD7B0, 0xD7C6),
    (0xD7CB, 0xD7FB),
    (0xFE00, 0xFE0F),
    (0xFEFF, 0xFEFF),
    (0xFFA0, 0xFFA0),
    (0xFFF0, 0xFFF8),
    (0x1BCA0, 0x1BCA3),
    (0x1D173, 0x1D17A),
    (0xE0000, 0xE0FFF),
]
STARTS = [first for first, _ in IGNORABLE]
# Where characters that aren't assigned yet are wide (EastAsianWidth); of others Python tells more than Unicode does.
UNASSIGNED_WIDE = [(0x3400, 0x4DBF), (0x4E00, 0x9FFF), (0xF900, 0xFAFF), (0x20000, 0x2FFFD), (0x30000, 0x3FFFD)]
ONE = {0x00AD, 0x2D7F, 0xFF9E, 0xFF9F}
TWO = {0x115F, 0x17A4, 0x17D8}
NONE = {0x0605, 0x070F, 0x0890, 0x0891, 0x08E2, 0xA8FA}
# Grapheme_Cluster_Break=Prepend that are no Prepended_Concatenation_Mark.
NONE |= {0x0D4E, 0x111C2, 0x111C3, 0x113D1, 0x1193F, 0x11941, *range(0x11A84, 0x11A8A), 0x11D46, 0x11F02}


def width(character):
    """How many columns a character takes. Grapheme_Extend is taken for the categories Mn and Me."""
    code, category = ord(character), unicodedata.category(character)
    if code in ONE or category == "Mc":
        return 1
    if code in TWO:
        return 2
    at = bisect.bisect(STARTS, code) - 1
    if code in NONE or category in ("Mn", "Me") or at >= 0 and code <= IGNORABLE[at][1]:
        return 0
    if category == "Cn":
        return 2 if any(first <= code <= last for first, last in UNASSIGNED_WIDE) else 1
    return 2 if unicodedata.east_asian_width(character) in "WF" else 1


@dataclass(frozen=True)
class Rendition:
    """Attributes, ink and ground: None is the default, a number stands for the palette, three are red, green, blue."""

    attributes: int = 0
    ink: object = None
    ground: object = None


@dataclass(frozen=True)
class Cell:
    """A character with its marks, and how wide it is; a covered cell has no text and no width."""

    text: str = " "
    wide: int = 1
    rendition: Rendition = Rendition()


@dataclass(frozen=True)
class Saved:
    """What DECSC saves; as it stands, what DECRC takes without a save."""

    line: int = 1
    column: int = 1
    wrap: bool = False
    origin: bool = False
    rendition: Rendition = Rendition()
    sets: tuple = ("B", "B")
    invoked: int = 0


@dataclass
class Sheet:
    rows: list
    saved: Saved = Saved()


@dataclass
class State:
    """All that RIS brings back to its start."""

    columns: int
    lines: int
    sheets: list = None
    shown: int = 0
    line: int = 1
    column: int = 1
    wrap: bool = False
    top: int = 1
    bottom: int = None
    stops: set = None
    modes: dict = field(default_factory=lambda: {"DECAWM": True, "DECTCEM": True})
    rendition: Rendition = Rendition()
    sets: tuple = ("B", "B")
    invoked: int = 0
    last: str = None
    title: bool = False

    def __post_init__(self):
        self.sheets = [Sheet([[Cell()] * self.columns for _ in range(self.lines)]) for _ in range(2)]
        self.bottom = self.lines
        self.stops = set(range(9, self.columns + 1, 8))


def mended(row, blank):
    """The row with each half that stands alone blank."""
    covers = [cell.wide == 2 and row[at + 1 : at + 2] and not row[at + 1].wide for at, cell in enumerate(row)]
    follows = [False, *covers[:-1]]
    return [
        cell if cell.wide == 1 or covers[at] or cell.wide == 0 and follows[at] else blank for at, cell in enumerate(row)
    ]


class Terminal:
    """A terminal of a size. Lines and columns are counted from 1, the items of lists from 0."""

    def __init__(self, columns, lines):
        self.state = State(columns, lines)
        self.pending = b""
        self.reports = b""

    # What it shows.

    def rows(self):
        """The rows of the shown sheet, each a list of cells."""
        return self.state.sheets[self.state.shown].rows

    def texts(self):
        """The lines of the plain print."""
        return [row_text(row) for row in self.rows()]

    def place(self):
        """The cursor's line and column, and whether a wrap is pending."""
        return self.state.line, self.state.column, self.state.wrap

    # Bytes.

    def feed(self, data):
        for byte in data:
            self.step(byte)

    def step(self, byte):
        """One byte, by what is pending."""
        begun, self.pending = self.pending, b""
        if self.state.title:
            self.in_title(byte)
        elif not begun:
            self.on_ground(byte)
        elif begun[0] >= 0x80:
            self.in_character(begun, byte)
        elif len(begun) > 1 and begun[1:2] in b"PX]^_":
            self.in_string(begun, byte)
        else:
            self.in_sequence(begun, byte)

    def in_title(self, byte):
        if byte in (0x07, 0x18, 0x1A, 0x1B):
            self.state.title = False
        if byte == 0x1B:
            self.pending = b"\x1b"

    def on_ground(self, byte):
        if byte == 0x1B or 0xC2 <= byte <= 0xF4:
            self.pending = bytes([byte])
        elif byte < 0x20:
            self.control(byte)
        elif byte < 0x7F:
            self.put(self.in_set(byte))
        elif byte > 0x7F:
            self.put(REPLACEMENT)

    def in_character(self, begun, byte):
        first = begun[0]
        low, high = SECOND.get(first, (0x80, 0xBF)) if len(begun) == 1 else (0x80, 0xBF)
        if not low <= byte <= high:
            self.put(REPLACEMENT)
            self.on_ground(byte)
            return
        begun += bytes([byte])
        if len(begun) < (2 if first < 0xE0 else 3 if first < 0xF0 else 4):
            self.pending = begun
        elif "\x80" <= begun.decode() <= "\x9f":
            self.state.last = None
        else:
            self.put(begun.decode())

    def in_string(self, begun, byte):
        if byte == 0x1B:
            self.pending = b"\x1b"
        elif byte in (0x07, 0x18, 0x1A):
            self.state.last = None
        else:
            self.pending = begun[:2]

    def in_sequence(self, begun, byte):
        if byte == 0x1B:
            self.pending = b"\x1b"
        elif byte in (0x18, 0x1A):
            self.state.last = None
        elif byte < 0x20:
            self.pending = begun
            self.control(byte)
        elif byte >= 0x7F:
            self.pending = begun
        elif begun[1:2] == b"[" and byte < 0x40 or begun == b"\x1b" and byte in b"[PX]^_" or byte < 0x30:
            self.pending = begun + bytes([byte])
        else:
            self.ended(begun[1:], chr(byte))
            self.state.last = None

    def ended(self, text, final):
        """A sequence that has come to its final: what stood between ESC and it."""
        if text[:1] != b"[":
            self.escape(text.decode(), final)
        elif WELL_FORMED.fullmatch(text[1:]):
            private = text[1:2] == b"?"
            pieces = text[2 if private else 1 :].split(b";")
            numbers = [min(int(piece or b"0"), 9999) for piece in pieces[:16]]
            if not private:
                getattr(self, SEQUENCES.get(final, "nothing"))(numbers)
            elif final in "hl":
                for number in numbers:
                    self.private_mode(number, final == "h")

    # Characters.

    def in_set(self, byte):
        """The character that a byte is put as, by the invoked set."""
        chosen = self.state.sets[self.state.invoked]
        if chosen == "0" and byte >= 0x5F:
            return SPECIAL[byte - 0x5F]
        return "£" if chosen == "A" and byte == 0x23 else chr(byte)

    def put(self, character):
        wide = width(character)
        if not wide:
            self.mark(character)
            return
        state = self.state
        if state.wrap:
            self.wrapped()
        if wide == 2 and state.column == state.columns:
            if not state.modes["DECAWM"]:
                state.last = None
                return
            self.wrapped()
        row, at = self.row(), state.column - 1
        if state.modes.get("IRM"):
            row = row[:at] + [self.blank()] * wide + row[at:]
        row[at : at + wide] = [Cell(character, wide, state.rendition), Cell("", 0, state.rendition)][:wide]
        self.write(row[: state.columns])
        if state.column + wide > state.columns:
            state.column = state.columns
            state.wrap = state.modes["DECAWM"]
        else:
            state.column += wide
        state.last = character

    def mark(self, character):
        """Joins a character of width 0 to a cell."""
        row, at = self.row(), self.state.column - 1
        if not self.state.wrap:
            at -= 1
        if at >= 0 and not row[at].wide:
            at -= 1
        if at >= 0 and len(row[at].text) < 3:
            row[at] = replace(row[at], text=row[at].text + character)
            self.write(row)

    def wrapped(self):
        self.to_column(1)
        self.index()

    # Rows.

    def blank(self):
        return Cell(rendition=Rendition(ground=self.state.rendition.ground))

    def row(self, line=None):
        """A copy of a row, the cursor's if no line is told."""
        return list(self.rows()[(line or self.state.line) - 1])

    def write(self, row, line=None):
        """Puts a row in place, with its halves mended."""
        self.rows()[(line or self.state.line) - 1] = mended(row, self.blank())

    def erase(self, line, first, last):
        """Cells of a row, from column to column, become blank."""
        row = self.row(line)
        row[first - 1 : last] = [self.blank()] * len(row[first - 1 : last])
        self.write(row, line)

    def scroll(self, top, bottom, count):
        """The rows from line to line move up by a count, down where it is below zero."""
        rows, height = self.rows(), bottom - top + 1
        count = max(-height, min(count, height))
        come = [[self.blank()] * self.state.columns for _ in range(abs(count))]
        kept = rows[top - 1 : bottom]
        rows[top - 1 : bottom] = kept[count:] + come if count >= 0 else come + kept[:count]

    # Places.

    def to_column(self, column):
        self.state.wrap = False
        self.state.column = max(1, min(column, self.state.columns))

    def to_line(self, line):
        self.state.wrap = False
        self.state.line = line

    def counted(self, line):
        """The line that CUP and VPA mean."""
        state = self.state
        if state.modes.get("DECOM"):
            return min(state.top - 1 + line, state.bottom)
        return min(line, state.lines)

    def home(self):
        self.to_line(self.counted(1))
        self.to_column(1)

    def index(self):
        state = self.state
        if state.line == state.bottom:
            self.scroll(state.top, state.bottom, 1)
            self.to_line(state.line)
        else:
            self.to_line(min(state.line + 1, state.lines))

    def reverse_index(self):
        state = self.state
        if state.line == state.top:
            self.scroll(state.top, state.bottom, -1)
            self.to_line(state.line)
        else:
            self.to_line(max(state.line - 1, 1))

    def tab(self):
        """HT leaves a pending wrap."""
        state = self.state
        state.column = min([stop for stop in state.stops if stop > state.column], default=state.columns)

    # Controls and escape sequences.

    def control(self, byte):
        state = self.state
        state.last = None
        if byte == 0x08:
            self.to_column(state.column - 1)
        elif byte == 0x09:
            self.tab()
        elif 0x0A <= byte <= 0x0C:
            if state.modes.get("LNM"):
                self.to_column(1)
            self.index()
        elif byte == 0x0D:
            self.to_column(1)
        elif byte in (0x0E, 0x0F):
            state.invoked = 0x0F - byte

    def escape(self, between, final):
        state = self.state
        if between in ("(", ")"):
            if final in "AB012":
                sets, at = list(state.sets), "()".index(between)
                sets[at] = {"1": "B", "2": "0"}.get(final, final)
                state.sets = tuple(sets)
        elif between == "#" and final == "8":
            self.align()
        elif not between:
            getattr(self, ESCAPES.get(final, "nothing"))()

    def nothing(self, _=None):
        pass

    def next_line(self):
        self.to_column(1)
        self.index()

    def set_tab(self):
        self.state.stops.add(self.state.column)

    def identify(self):
        self.reports += b"\x1b[?1;2c"

    def reset(self):
        self.state = State(self.state.columns, self.state.lines)

    def save(self, _=None):
        state = self.state
        origin = bool(state.modes.get("DECOM"))
        saved = Saved(*self.place(), origin, state.rendition, state.sets, state.invoked)
        state.sheets[state.shown].saved = saved

    def restore(self, _=None):
        state = self.state
        saved = state.sheets[state.shown].saved
        state.modes["DECOM"] = saved.origin
        state.rendition, state.sets, state.invoked = saved.rendition, saved.sets, saved.invoked
        state.line = max(state.top, min(saved.line, state.bottom)) if saved.origin else saved.line
        state.column = saved.column
        state.wrap = saved.wrap and state.modes["DECAWM"] and state.column == state.columns

    def application_keypad(self):
        self.state.modes["keypad"] = True

    def numeric_keypad(self):
        self.state.modes["keypad"] = False

    def align(self):
        state = self.state
        state.sheets[state.shown].rows = [[Cell("E")] * state.columns for _ in range(state.lines)]
        state.top, state.bottom, state.modes["DECOM"] = 1, state.lines, False
        self.home()

    def title(self):
        self.state.title = True

    # Control sequences. Each takes the parameters.

    def up(self, numbers):
        state = self.state
        stop = state.top if state.line >= state.top else 1
        self.to_line(max(state.line - (numbers[0] or 1), stop))

    def down(self, numbers):
        state = self.state
        stop = state.bottom if state.line <= state.bottom else state.lines
        self.to_line(min(state.line + (numbers[0] or 1), stop))

    def right(self, numbers):
        self.to_column(self.state.column + (numbers[0] or 1))

    def left(self, numbers):
        self.to_column(self.state.column - (numbers[0] or 1))

    def next_lines(self, numbers):
        self.down(numbers)
        self.to_column(1)

    def lines_before(self, numbers):
        self.up(numbers)
        self.to_column(1)

    def column_at(self, numbers):
        self.to_column(numbers[0] or 1)

    def line_at(self, numbers):
        self.to_line(self.counted(numbers[0] or 1))

    def down_freely(self, numbers):
        state = self.state
        self.to_line(min(state.line + (numbers[0] or 1), state.bottom if state.modes.get("DECOM") else state.lines))

    def position(self, numbers):
        self.line_at(numbers)
        self.column_at(numbers[1:] or [0])

    def tabs(self, numbers):
        for _ in range(numbers[0] or 1):
            self.tab()

    def tabs_back(self, numbers):
        for _ in range(numbers[0] or 1):
            self.to_column(max([stop for stop in self.state.stops if stop < self.state.column], default=1))

    def erase_display(self, numbers):
        state = self.state
        if numbers[0] <= 2:
            if numbers[0] != 0:
                self.erase_lines(1, state.line - 1)
            if numbers[0] != 1:
                self.erase_lines(state.line + 1, state.lines)
            self.erase_line(numbers)

    def erase_lines(self, first, last):
        for line in range(first, last + 1):
            self.erase(line, 1, self.state.columns)

    def erase_line(self, numbers):
        state = self.state
        if numbers[0] <= 2:
            first = state.column if numbers[0] == 0 else 1
            last = state.column if numbers[0] == 1 else state.columns
            self.erase(state.line, first, last)
            state.wrap = False

    def erase_cells(self, numbers):
        column = self.state.column
        self.erase(self.state.line, column, column + (numbers[0] or 1) - 1)
        self.state.wrap = False

    def insert_cells(self, numbers):
        row, at = self.row(), self.state.column - 1
        row[at:at] = [self.blank()] * min(numbers[0] or 1, self.state.columns)
        self.write(row[: self.state.columns])
        self.state.wrap = False

    def delete_cells(self, numbers):
        row, at, blank = self.row(), self.state.column - 1, self.blank()
        end = min(at + (numbers[0] or 1), len(row))
        # A character that lies across either end of what goes becomes blank first.
        for border in (at, end):
            if 0 < border < len(row) and not row[border].wide:
                row[border - 1 : border + 1] = [blank, blank]
        del row[at:end]
        self.write(row + [blank] * (end - at))
        self.state.wrap = False

    def insert_lines(self, numbers):
        state = self.state
        if state.top <= state.line <= state.bottom:
            self.scroll(state.line, state.bottom, -(numbers[0] or 1))
            self.to_column(1)

    def delete_lines(self, numbers):
        state = self.state
        if state.top <= state.line <= state.bottom:
            self.scroll(state.line, state.bottom, numbers[0] or 1)
            self.to_column(1)

    def scroll_up(self, numbers):
        self.scroll(self.state.top, self.state.bottom, numbers[0] or 1)

    def scroll_down(self, numbers):
        if len(numbers) == 1:
            self.scroll(self.state.top, self.state.bottom, -(numbers[0] or 1))

    def repeat(self, numbers):
        if self.state.last is not None:
            last = self.state.last
            for _ in range(numbers[0] or 1):
                self.put(last)

    def clear_tabs(self, numbers):
        if numbers[0] == 0:
            self.state.stops.discard(self.state.column)
        elif numbers[0] == 3:
            self.state.stops.clear()

    def set_modes(self, numbers):
        self.modes(numbers, True)

    def reset_modes(self, numbers):
        self.modes(numbers, False)

    def modes(self, numbers, on):
        for number in numbers:
            if number in (4, 20):
                self.state.modes["IRM" if number == 4 else "LNM"] = on

    def margins(self, numbers):
        state = self.state
        top, bottom = numbers[0] or 1, min((numbers[1:] or [0])[0] or state.lines, state.lines)
        if top < bottom:
            state.top, state.bottom = top, bottom
            self.home()

    def attributes(self, numbers):
        if numbers[0] == 0:
            self.identify()

    def status(self, numbers):
        state = self.state
        if numbers[0] == 5:
            self.reports += b"\x1b[0n"
        elif numbers[0] == 6:
            line = state.line - (state.top - 1 if state.modes.get("DECOM") else 0)
            self.reports += b"\x1b[%d;%dR" % (line, state.column)

    def parameters(self, numbers):
        if numbers[0] <= 1:
            self.reports += b"\x1b[%d;1;1;112;112;1;0x" % (numbers[0] + 2)

    def select_rendition(self, numbers):
        numbers = list(numbers)
        while numbers:
            number = numbers.pop(0)
            if number in (38, 48, 58):
                kind = numbers.pop(0) if numbers else None
                count = {5: 1, 2: 3}.get(kind, 0)
                told, numbers = numbers[:count], numbers[count:]
                if count and len(told) == count and max(told) <= 255 and number != 58:
                    colour = told[0] if count == 1 else tuple(told)
                    self.state.rendition = replace(self.state.rendition, **{INKS[number]: colour})
            else:
                self.state.rendition = rendered(self.state.rendition, number)

    # Modes with `?`.

    def private_mode(self, number, on):
        state = self.state
        if number in (1, 5, 25):
            state.modes[{1: "DECCKM", 5: "DECSCNM", 25: "DECTCEM"}[number]] = on
        elif number == 6:
            state.modes["DECOM"] = on
            self.home()
        elif number == 7:
            state.modes["DECAWM"] = on
            state.wrap = state.wrap and on
        elif number in (47, 1047):
            self.show_sheet(on)
        elif number == 1048:
            self.save() if on else self.restore()
        elif number == 1049:
            if on and not state.shown:
                self.save()
            self.show_sheet(on)
            if not on:
                self.restore()

    def show_sheet(self, alternate):
        state = self.state
        if alternate and not state.shown:
            state.sheets[1].rows = [[self.blank()] * state.columns for _ in range(state.lines)]
        state.shown = int(alternate)


INKS = {38: "ink", 48: "ground"}
SETS = {1: BOLD, 2: FAINT, 3: ITALIC, 4: UNDERSCORE, 5: BLINK, 6: BLINK, 7: REVERSE, 8: CONCEALED, 9: CROSSED}
SETS[21] = UNDERSCORE
CLEARS = {22: BOLD | FAINT, 23: ITALIC, 24: UNDERSCORE, 25: BLINK, 27: REVERSE, 28: CONCEALED, 29: CROSSED}
COLOURS = {30: ("ink", 0), 90: ("ink", 8), 40: ("ground", 0), 100: ("ground", 8)}
ESCAPES = {
    "D": "index",
    "E": "next_line",
    "M": "reverse_index",
    "H": "set_tab",
    "Z": "identify",
    "c": "reset",
    "7": "save",
    "8": "restore",
    "=": "application_keypad",
    ">": "numeric_keypad",
    "k": "title",
}
SEQUENCES = {
    "A": "up",
    "B": "down",
    "C": "right",
    "a": "right",
    "D": "left",
    "E": "next_lines",
    "F": "lines_before",
    "G": "column_at",
    "`": "column_at",
    "d": "line_at",
    "e": "down_freely",
    "H": "position",
    "f": "position",
    "I": "tabs",
    "Z": "tabs_back",
    "J": "erase_display",
    "K": "erase_line",
    "X": "erase_cells",
    "@": "insert_cells",
    "P": "delete_cells",
    "L": "insert_lines",
    "M": "delete_lines",
    "S": "scroll_up",
    "T": "scroll_down",
    "b": "repeat",
    "g": "clear_tabs",
    "h": "set_modes",
    "l": "reset_modes",
    "m": "select_rendition",
    "r": "margins",
    "s": "save",
    "u": "restore",
    "c": "attributes",
    "n": "status",
    "x": "parameters",
}


def rendered(rendition, number):
    """The rendition after a parameter that takes no others with it."""
    if number == 0:
        return Rendition()
    if number in SETS:
        return replace(rendition, attributes=rendition.attributes | SETS[number])
    if number in CLEARS:
        return replace(rendition, attributes=rendition.attributes & ~CLEARS[number])
    if number in (39, 49):
        return replace(rendition, **{INKS[number - 1]: None})
    kind, bright = COLOURS.get(number - number % 10, (None, 0))
    if kind and number % 10 < 8:
        return replace(rendition, **{kind: bright + number % 10})
    return rendition


def row_text(row):
    """A row as the plain print has it."""
    texts = [cell.text for cell in row if cell.wide]
    while texts and texts[-1] == " ":
        texts.pop()
    return "".join(texts)


def plain_text(terminal):
    """The plain print."""
    return "".join(text + "\n" for text in terminal.texts())
