"""A plain reading of what a picture draws of a screen of today, and of the entries of a page.

It is written from docs/PICTURES.md and docs/TODAY.md alone, over the plain reading of the terminal, and shares nothing
with the program but assets/outlines.tsv.
"""
import itertools
import json
import os
import re
from dataclasses import dataclass

import plain_today as today

STYLE = (
    "text{font:16.67px 'DejaVu Sans Mono',Menlo,Consolas,'Liberation Mono',monospace;white-space:pre}"
    "path{shape-rendering:crispEdges}g:last-child path{shape-rendering:auto}tspan{unicode-bidi:isolate-override}"
    ".i{fill:#ddd}.p{fill:#111}.b{font-weight:bold}.t{font-style:italic}.n{fill:none}"
    ".k{animation:k 1s step-end infinite}@keyframes k{50%{opacity:.2}}"
    "@media print,(prefers-reduced-motion:reduce){.k{animation:none}}"
)
FIRST_COLOURS = (
    "000000 d64d4d 3fa33f e0bc48 3564c8 b565b5 3fb0b0 cccccc 767676 ff8078 7fd97f ffe066 8fb8ff e8a0e8 7fe0e0 ffffff"
).split()
LEVELS = "00 5f 87 af d7 ff".split()
# What the number of a kind counts: the attributes, drawn, of width 2, one cell with marks.
COUNTS = {
    today.BOLD: 1,
    today.UNDERSCORE: 2,
    today.BLINK: 4,
    today.REVERSE: 8,
    today.FAINT: 32,
    today.ITALIC: 64,
    today.CONCEALED: 128,
    today.CROSSED: 256,
}
DRAWN, BROAD, MARKED = 16, 512, 1024
HERE = os.path.dirname(os.path.abspath(__file__))
with open(os.path.join(HERE, "..", "assets", "outlines.tsv"), encoding="utf-8") as table:
    OUTLINES = {line.split("\t")[1]: line.rstrip("\n").split("\t")[2] for line in table}


def dots(pattern):
    """The raised dots of a Braille pattern, each told from the one before it."""
    told, before = "", (0, 0)
    for bit in range(8):
        if pattern >> bit & 1:
            place = (6 if bit in (3, 4, 5, 7) else 1, 16 if bit > 5 else 1 + 5 * (bit % 3))
            right, down = place[0] - before[0], place[1] - before[1]
            told += f"m{right}{'' if down < 0 else ' '}{down}h3v3h-3z"
            before = place
    return told


def outline(character):
    if "\u2800" <= character <= "\u28ff":
        return dots(ord(character) - 0x2800)
    return OUTLINES[character]


def is_drawn(text):
    return text in OUTLINES or len(text) == 1 and "\u2800" <= text <= "\u28ff"


# ---- runs


@dataclass
class Run:
    """A run: its rendition, its kind's number, its cells with the columns before them, and its columns."""

    rendition: object
    kind: int
    cells: list
    columns: int

    @property
    def before(self):
        return self.cells[0][0]

    def has(self, attribute):
        return bool(self.rendition.attributes & attribute)


def kind_of(cell):
    told = sum(number for bit, number in COUNTS.items() if cell.rendition.attributes & bit)
    return told + DRAWN * is_drawn(cell.text) + BROAD * (cell.wide == 2) + MARKED * (len(cell.text) > 1)


def inked(row):
    """The cells up to the last that isn't a space alone without rendition."""
    cells = list(row)
    while cells and cells[-1] == today.Cell():
        cells.pop()
    return cells


def runs_of(row):
    runs = []
    for column, cell in enumerate(inked(row)):
        if not cell.wide:
            runs[-1].columns += 1
            continue
        kind = kind_of(cell)
        last = runs[-1] if runs else None
        if last and not kind & MARKED and (last.rendition, last.kind) == (cell.rendition, kind):
            last.cells.append((column, cell.text))
            last.columns += 1
        else:
            runs.append(Run(cell.rendition, kind, [(column, cell.text)], 1))
    return runs


# ---- colours

INK, BACK = "ink", "back"


def palette(number):
    if number < 16:
        return FIRST_COLOURS[number]
    if number < 232:
        return "".join(LEVELS[(number - 16) // unit % 6] for unit in (36, 6, 1))
    return f"{8 + 10 * (number - 232):02x}" * 3


def painted(colour, usual):
    if colour is None:
        return usual
    return "#" + (palette(colour) if isinstance(colour, int) else "%02x%02x%02x" % tuple(colour))


def paints(rendition):
    """What letters are painted with, and what they stand on."""
    ink = rendition.ink
    if isinstance(ink, int) and ink < 8 and rendition.attributes & today.BOLD:
        ink += 8
    told = painted(ink, INK), painted(rendition.ground, BACK)
    return told[::-1] if rendition.attributes & today.REVERSE else told


def attributes(names, paint, paper, faint=False):
    """Classes, then the paint, then whether it is faint."""
    said = " ".join([name for name in names if name] + [paper] * (paint == BACK))
    told = f' class="{said}"' if said else ""
    told += f' fill="{paint}"' if paint.startswith("#") else ""
    return told + (' fill-opacity=".7"' if faint else "")


# ---- the picture


def escaped(text):
    text = text.replace("\ufffe", "\ufffd").replace("\uffff", "\ufffd")
    return text.replace("&", "&amp;").replace("<", "&lt;").replace(">", "&gt;")


def is_alone(run, text):
    return bool(run.kind & (BROAD | MARKED)) or text > "\uffff" or text in "\xad\u2028\u2029"


def letters(run, paper):
    if run.has(today.CONCEALED):
        return ""
    names = [
        run.has(today.BOLD) and "b",
        run.has(today.ITALIC) and "t",
        run.has(today.BLINK) and "k",
        run.kind & DRAWN and "n",
    ]
    if run.kind & DRAWN:
        told = attributes(names, INK, paper)
    else:
        told = attributes(names, paints(run.rendition)[0], paper, run.has(today.FAINT))
    pieces = []
    for alone, group in itertools.groupby(run.cells, lambda cell: is_alone(run, cell[1])):
        cells = list(group)
        pieces += [[cell] for cell in cells] if alone else [cells]
    return "".join(
        '<tspan%s x="%s">%s</tspan>'
        % (told, " ".join(str(10 * column) for column, _ in piece), escaped("".join(text for _, text in piece)))
        for piece in pieces
    )


def strokes(run, paper):
    left, width, path = 10 * run.before, 10 * run.columns, ""
    if run.kind & DRAWN:
        path += "".join(f"M{10 * column} 0{outline(text)}" for column, text in run.cells)
    for attribute, y in ((today.UNDERSCORE, 17), (today.CROSSED, 9)):
        if run.has(attribute):
            path += f"M{left} {y}h{width}v2h-{width}z"
    stroked = run.kind & DRAWN or run.has(today.UNDERSCORE) or run.has(today.CROSSED)
    if run.has(today.CONCEALED) or not stroked:
        return ""
    told = attributes([run.has(today.BLINK) and "k"], paints(run.rendition)[0], paper, run.has(today.FAINT))
    return f'<path{told} d="{path}"/>'


def row_drawn(row, paper):
    runs = runs_of(row)
    text = f'<text y="15">{"".join(letters(run, paper) for run in runs)}</text>' if runs else ""
    return text + "".join(strokes(run, paper) for run in runs)


def grounds(row, line, paper):
    told, before = "", 0
    for paint, group in itertools.groupby(runs_of(row), lambda run: paints(run.rendition)[1]):
        many = sum(run.columns for run in group)
        if paint != BACK:
            square = f"M{10 * before} {20 * line}h{10 * many}v20h-{10 * many}z"
            told += f'<path{attributes([], paint, paper)} d="{square}"/>'
        before += many
    return told


def cursor(terminal, paper):
    state = terminal.state
    if not state.modes["DECTCEM"]:
        return ""
    row, column = terminal.rows()[state.line - 1], state.column - 1
    if row[column].wide == 0:
        column -= 1
    x, wide = 10 * column, 20 if row[column].wide == 2 else 10
    return (
        f'<path class="{paper}" d="M{x} 0h{wide}v20h-{wide}zm1 1v18h{wide - 2}v-18z"/>'
        f'<path d="M{x + 1} 1h{wide - 2}v18h-{wide - 2}zm1 1v16h{wide - 4}v-16z"/>'
    )


def is_reversed(terminal):
    return bool(terminal.state.modes.get("DECSCNM"))


def framed(line, drawn):
    return f'<g transform="translate(0 {20 * line})">{drawn}</g>\n'


def picture(terminal, seconds):
    """The SVG file of a terminal, at a moment as it is written."""
    state, rows = terminal.state, terminal.rows()
    ink, paper = ("p", "i") if is_reversed(terminal) else ("i", "p")
    width, height = 10 * state.columns + 20, 20 * state.lines + 20
    return (
        f'<svg xmlns="http://www.w3.org/2000/svg" class="{ink}" viewBox="-10 -10 {width} {height}" width="{width}"'
        f' height="{height}" role="group" aria-label="Screen" xml:space="preserve">'
        f"<title>Screen at {seconds} s</title><desc>{escaped(today.plain_text(terminal))}</desc>"
        f'<style>{STYLE}</style>\n<path class="{paper}" d="M-10 -10h{width}v{height}h-{width}z"/>\n'
        f"<g>{''.join(grounds(row, line, paper) for line, row in enumerate(rows))}</g>\n"
        + "".join(framed(line, row_drawn(row, paper)) for line, row in enumerate(rows))
        + framed(state.line - 1, cursor(terminal, paper))
        + "</svg>\n"
    )


# ---- the entries of a page


def colour_number(colour):
    if colour is None:
        return 0
    if isinstance(colour, int):
        return 1 + colour
    red, green, blue = colour
    return 257 + 65536 * red + 256 * green + blue


def said(row):
    """A row as an entry has it."""
    told = [0]
    for run in runs_of(row):
        numbers = [run.kind, colour_number(run.rendition.ink), colour_number(run.rendition.ground)]
        while numbers and numbers[-1] == 0:
            numbers.pop()
        told += [*numbers, "".join(text for _, text in run.cells)]
    return json.dumps(told, ensure_ascii=False, separators=(",", ":")).replace("<", "\\u003c")


def entry(before, terminal, seconds):
    """What a chunk makes of the rows before it."""
    rows, state = terminal.rows(), terminal.state
    flags = 2 * is_reversed(terminal) + 4 * (not state.modes["DECTCEM"])
    told = [seconds, str(flags), str(state.line), str(state.column)]
    for line, row in enumerate(rows):
        if row != before[line]:
            told += [str(line + 1), str(before.index(row) + 1) if row in before else said(row)]
    return "[" + ",".join(told) + "]"


def data(size, chunks, dues):
    """The data of a page: of a size, the bytes of the chunks, and when each is due, as it is written."""
    terminal = today.Terminal(*size)
    told = [f"[{size[0]},{size[1]}]", "[0.000000,0,1,1]"]
    for chunk, due in zip(chunks, dues):
        before = [list(row) for row in terminal.rows()]
        terminal.feed(chunk)
        told.append(entry(before, terminal, due))
    return "[" + ",\n".join(told) + "]"


def folded(entries):
    """The rows after each entry of a page's data, read as JSON."""
    lines = entries[0][1]
    rows = [[0]] * lines
    for _, _, _, _, *changes in entries[1:]:
        before, rows = rows, list(rows)
        for line, change in zip(changes[::2], changes[1::2]):
            rows[line - 1] = before[change - 1] if isinstance(change, int) else change
        yield rows


def lines_of(rows):
    """The text that rows of entries show."""
    return [re.sub(" +$", "", "".join(part for part in row if isinstance(part, str))) for row in rows]
