"""A plain reading of where a text stands on a screen, and of when it came and went, looked at byte by byte.

It is written from docs/PICTURES.md alone and shares nothing with the program. The terminal of today is played by
plain_today.py; the screens of a VT100 are drawn by the program itself.
"""
from collections import Counter
from typing import NamedTuple

import plain_reader
import plain_today
from plain_screen import drawn, text_of


class Row(NamedTuple):
    """A row's characters, the column in which each of them stands, and whether it runs on into the next row."""

    text: str
    columns: tuple
    runs_on: bool


def row_of(text):
    """A row of a VT100, whose characters stand from column 1 to its right margin."""
    return Row(text, tuple(range(1, len(text) + 1)), text[-1] != " ")


def rows_of(escaped):
    """The rows of a VT100."""
    screen = drawn(escaped)
    return [row_of(text_of(screen, row)) for row in screen.rows]


def row_of_today(cells, below):
    """A row of a terminal of today, by its cells and those of the row below it, if there is one."""
    before, last = (cell.text == " " for cell in cells[-2:])
    # A character of two columns may not have fit into the last one.
    unfit = last and not before and below is not None and below[0].wide == 2
    if unfit:
        cells = cells[:-1]
    columns = tuple(column for column, cell in enumerate(cells, 1) for _ in cell.text)
    return Row("".join(cell.text for cell in cells), columns, unfit or not last)


def rows_of_today(terminal, known):
    """The rows of a terminal of today. Those that are known by the lists of cells that they were read of, which
    plain_today.py never changes, are not read again."""
    shown = terminal.rows()
    for cells, below in zip(shown, [*shown[1:], None]):
        of = id(cells), id(below)
        if of not in known:
            # With the lists, so that no other one gets their numbers.
            known[of] = row_of_today(cells, below), cells, below
        yield known[of][0]


def screens_of_today(size, data):
    """The rows of a terminal of a size before the first byte and after each of them."""
    terminal, known = plain_today.Terminal(*size), {}
    yield list(rows_of_today(terminal, known))
    for byte in data:
        terminal.step(byte)
        yield list(rows_of_today(terminal, known))


def lines_of(rows):
    """The rows of each line, from its first one on."""
    line = []
    for number, row in enumerate(rows):
        line.append((number, row))
        if not row.runs_on or number == len(rows) - 1:
            yield line
            line = []


def places_of(joined, text):
    """Where a text begins in another, overlapping places too."""
    at = joined.find(text)
    while at >= 0:
        yield at
        at = joined.find(text, at + 1)


def standing(rows, text):
    """Each place of the text: row and column from 1, its left part, and its rows as they are written."""
    for line in lines_of(rows):
        joined = "".join(row.text for _, row in line)
        if text not in joined:
            continue
        starts = [sum(len(row.text) for _, row in line[:n]) for n in range(len(line) + 1)]
        for at in places_of(joined, text):
            first = max(n for n in range(len(line)) if starts[n] <= at)
            last = max(n for n in range(len(line)) if starts[n] < at + len(text))
            left = joined[starts[first] : at + len(text)]
            shown = joined[starts[first] : starts[last + 1]].rstrip(" ")
            yield line[first][0] + 1, line[first][1].columns[at - starts[first]], left, shown


def standings(screens, text):
    """The places on each screen; most bytes leave a screen as it is."""
    rows, places = None, []
    for screen in screens:
        if screen != rows:
            rows, places = screen, list(standing(screen, text))
        yield places


def less(one, other):
    """Each of one before which one has at least as many with its left part as the other has in all."""
    there, before = Counter(left for _, _, left, _ in other), Counter()
    for place in one:
        if before[place[2]] >= there[place[2]]:
            yield place
        before[place[2]] += 1


def told(sign, index, due, places):
    """A line for each place."""
    return "".join(f"{sign} {index} {due} {row} {column} {shown}\n" for row, column, _, shown in places)


def passed(stands):
    """What goes at a byte with a left part of neither end, of the places before a chunk and after each of its bytes."""
    ends = {left for _, _, left, _ in [*stands[0], *stands[-1]]}
    for before, after in zip(stands, stands[1:]):
        if before is not after:
            yield from (place for place in less(before, after) if place[2] not in ends)


def find_lines(screens, dues, asked, start, text):
    """The find lines of these chunks, of the screens before each and after each of its bytes; dues as they are written.

    A start is the moment from which chunks are asked for, how many are due by it, and the screen then.
    """
    lines = [told("=", start[1], start[0], standing(start[2], text))] if start else []
    for index in asked:
        stands = list(standings(screens[index], text))
        lines.append(told("-", index, dues[index], less(stands[0], stands[-1])))
        lines.append(told("~", index, dues[index], passed(stands)))
        lines.append(told("+", index, dues[index], less(stands[-1], stands[0])))
    return "".join(lines)


def found(chunks, screens, first, last, text):
    """The find lines of the chunks that are due after one moment, where it is told, and by another, where it is told.

    A chunk is a delay in microseconds and bytes; the screens are the one before the first byte and those after each.
    """
    moments, ends = [0], [0]
    for delay, data in chunks:
        moments.append(moments[-1] + delay)
        ends.append(ends[-1] + len(data))
    dues = moments[1:]
    asked = [n for n, due in enumerate(dues) if (first is None or due > first) and (last is None or due <= last)]
    start = None
    if first is not None:
        count = sum(due <= first for due in dues)
        start = plain_reader.written(first).decode(), count, screens[ends[count]]
    by_chunk = [screens[at : end + 1] for at, end in zip(ends, ends[1:])]
    return find_lines(by_chunk, [plain_reader.written(due).decode() for due in dues], asked, start, text)
