#!/usr/bin/env python3
"""A plain reading of the session as text: the rows that left the screen at its top, and those that stand there.

It is written from docs/TRANSCRIPT.md alone and shares nothing with the program. The terminals are those of
plain_today.py and plain_vt100.py; here they tell which rows leave. Run by itself it sees to worked rows.
"""
import itertools

import plain_today
import plain_vt100

# Controls that aren't told as such: BEL, CAN and SUB.
NO_CONTROLS = (0x07, 0x18, 0x1A)


class Leaving:
    """What both terminals have in common: the rows that left, and whether all stands directly behind home."""

    def __init__(self, *setup):
        super().__init__(*setup)
        self.rows_left = []
        self.behind_home = False
        self.went_home = False

    def leave(self, count):
        """The first rows leave."""
        if self.is_main_shown():
            self.rows_left += self.main_texts()[:count]

    def take_all(self):
        """All rows of the main sheet to the last that isn't blank leave."""
        self.rows_left += without_blank_end(self.main_texts())

    def put(self, *character):
        super().put(*character)
        self.behind_home = False

    def control(self, byte):
        super().control(byte)
        self.behind_home = self.behind_home and byte in NO_CONTROLS

    def ended(self, text, final):
        self.went_home = False
        super().ended(text, final)
        self.behind_home = self.went_home and (self.state.line, self.state.column) == (1, 1)

    def position(self, *place):
        super().position(*place)
        self.went_home = True

    def index(self):
        if self.state.line == self.state.bottom and self.state.top == 1:
            self.leave(1)
        super().index()

    def erases_display(self, part):
        if self.is_main_shown() and (part == 2 or part == 0 and self.behind_home):
            self.take_all()

    def reset(self):
        self.take_all()
        super().reset()

    def transcript(self):
        """The rows that left, and those that stand."""
        return self.rows_left + self.main_texts()


class Today(Leaving, plain_today.Terminal):
    """The terminal of today."""

    def is_main_shown(self):
        return not self.state.shown

    def main_texts(self):
        return [plain_today.row_text(row) for row in self.state.sheets[0].rows]

    def erase_display(self, numbers):
        self.erases_display(numbers[0])
        super().erase_display(numbers)

    def scroll_up(self, numbers):
        if self.state.top == 1:
            self.leave(min(numbers[0] or 1, self.state.bottom))
        super().scroll_up(numbers)


class Vt100(Leaving, plain_vt100.Terminal):
    """A VT100 or a VT102."""

    def is_main_shown(self):
        return True

    def main_texts(self):
        return [self.row_text(row) for row in self.state.rows]

    def erase(self, display, part):
        if display:
            self.erases_display(part)
        super().erase(display, part)

    def home(self):
        super().home()
        self.went_home = self.pending_vt52

    def set_columns(self, columns):
        self.take_all()
        super().set_columns(columns)


def terminal_of(profile, size=(80, 24)):
    return Today(*size) if profile == "xterm" else Vt100(profile == "vt102")


def without_blank_end(texts):
    """The rows to the last that isn't blank."""
    count = len(texts)
    while count and not texts[count - 1]:
        count -= 1
    return texts[:count]


def due_count(chunks, moment):
    """How many chunks are due by a moment."""
    return sum(due <= moment for due in itertools.accumulate(delay for delay, _ in chunks))


def transcript(chunks, profile, size=(80, 24), first=None, last=None):
    """The transcript of chunks, each a delay and bytes, from one moment and to another, where they are told."""
    end = len(chunks) if last is None else due_count(chunks, last)
    start = 0 if first is None else min(due_count(chunks, first), end)
    terminal = terminal_of(profile, size)
    terminal.feed(b"".join(data for _, data in chunks[:start]))
    told = len(terminal.rows_left)
    terminal.feed(b"".join(data for _, data in chunks[start:end]))
    return "".join(text + "\n" for text in without_blank_end(terminal.transcript()[told:]))


# Profile, bytes and transcript of worked rows, of today at 10x4: | is CR LF, ~ is ESC, and / ends a line.
ROWS = [
    ("xterm", "one|two||four|five|six||", "one/two//four/five/six/"),
    ("xterm", "1|2|3|4~[1;3r~[3;1H\n\n~[r~[4;1H|5", "1/2/3///4/5/"),
    ("xterm", "1|2|3|4~[2;4r~[4;1H\n\n", "1/4/"),
    ("xterm", "1|2|3|4~[2Sx", "1/2/3/4// x/"),
    ("xterm", "1|2|3|4~[H~[2Mx~M", "/x/4/"),
    ("xterm", "$ ls|a|$ clear|~[H~[2J~[3J$ ", "$ ls/a/$ clear/$/"),
    ("xterm", "a||b~[H~[Jc~[H~[J", "a//b/c/"),
    ("xterm", "% a\r\r~[J% ab\r\r~[J% abc", "% abc/"),
    ("xterm", "a~[2J~[2J|b~cc", "a//b/c/"),
    ("xterm", "$ vi|~[?1049h1|2|3|4|5~[2J~[?1049l$ ", "$ vi/$/"),
    ("xterm", "1|2|3|4|5~[?1049hvi", "1/2/3/4/5/"),
    ("xterm", "abcdefghijklm|0123456789|ab cd ef gh ij|", "abcdefghij/klm/0123456789/ab cd ef g/h ij/"),
    ("xterm", "abcdefghi日本|ab", "abcdefghi/日本/ab/"),
    ("xterm", "10%\r50%\r100%~[K|done  |", "100%/done/"),
    ("xterm", "a\n\n\n\n\n\nb\n\n\n\n\n\n\n", "a////// b/"),
    ("vt100", "ab~[?3hcd~[?3l", "ab/cd/"),
    ("vt100", "ab~[?2l~H~Jc", "ab/c/"),
    ("vt102", "a|b~[H~[Mc", "c/"),
    # Directly behind home: strings and controls that aren't told leave it, a finished sequence doesn't.
    ("xterm", "a~[H~]0;t\a~[Jb", "a/b/"),
    ("xterm", "a~[H~]0;t~\\~[Jb", "b/"),
    ("xterm", "a~[H\0~[Jb", "b/"),
    ("xterm", "a~[H\a~[Jb", "a/b/"),
    ("xterm", "a~[H~[\r0Jb", "b/"),
    ("xterm", "a~[H~[m~[Jb", "b/"),
    ("vt100", "a~[H~(\x18~[Jb", "▒b/"),
    # REP wraps inside one byte.
    ("xterm", "ab~[45b", "a" + "b" * 9 + "/" + "bbbbbbbbbb/" * 3 + "bbbbbbb/"),
]
CHUNKS = [(1_000_000, b"1\r\n2\r\n3\r\n4\r\n5"), (1_000_000, b"\r\n6\r\n7")]
MOMENTS = [(None, 1, "12345"), (1, None, "234567"), (2, None, "4567"), (2, 1, "2345")]


def check(name, got, wanted):
    assert got == wanted, f"{name}: {got!r} and not {wanted!r}"


def main():
    for profile, said, wanted in ROWS:
        data = said.replace("|", "\r\n").replace("~", "\x1b").encode()
        for cut in range(len(data) + 1):
            chunks = [(0, data[:cut]), (0, data[cut:])]
            check(said, transcript(chunks, profile, (10, 4)), wanted.replace("/", "\n"))
    for first, last, wanted in MOMENTS:
        moments = [moment and moment * 1_000_000 for moment in (first, last)]
        check(moments, transcript(CHUNKS, "xterm", (10, 4), *moments), "".join(row + "\n" for row in wanted))
    print(f"{len(ROWS)} rows and {len(MOMENTS)} moments read as they should be")


if __name__ == "__main__":
    main()
