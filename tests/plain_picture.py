"""A plain reading of what `picture` draws of a screen, and of the entries of `page`.

It is written from docs/PICTURES.md alone and shares nothing with the program.
"""
import json

from plain_screen import BLINK, BOLD, BOTTOM, DOUBLE, REVERSE, SINGLE, TOP, UNDERSCORE, character, plain_text

DRAWN = 16
OUTLINES = {
    1: "m5 5l4 5-4 5-4-5z",
    2: "m0 0h5v5h-5zm5 5h5v5h-5zm-5 5h5v5h-5zm5 5h5v5h-5z",
    11: "m0 9h4v-9h2v11h-6z",
    12: "m0 9h6v11h-2v-9h-4z",
    13: "m4 9h6v2h-4v9h-2z",
    14: "m4 0h2v9h4v2h-6z",
    15: "m4 0h2v9h4v2h-4v9h-2v-9h-4v-2h4z",
    16: "m0 1h10v2h-10z",
    17: "m0 5h10v2h-10z",
    18: "m0 9h10v2h-10z",
    19: "m0 13h10v2h-10z",
    20: "m0 17h10v2h-10z",
    21: "m4 0h2v9h4v2h-4v9h-2z",
    22: "m4 0h2v20h-2v-9h-4v-2h4z",
    23: "m4 0h2v9h4v2h-10v-2h4z",
    24: "m0 9h10v2h-4v9h-2v-9h-4z",
    25: "m4 0h2v20h-2z",
}
STYLE = (
    "text{font:16.67px 'DejaVu Sans Mono',Menlo,Consolas,'Liberation Mono',monospace;white-space:pre}"
    "path{shape-rendering:crispEdges}.i{fill:#ddd}.p{fill:#111}.b{font-weight:bold}.n{fill:none}"
    ".k{animation:k 1s step-end infinite}@keyframes k{50%{opacity:.2}}@media print{.i{fill:#111}.p{fill:#fff}}"
    "@media print,(prefers-reduced-motion:reduce){.k{animation:none}}"
)


def runs_of(row):
    """The runs of a row's inked cells: their kind, their glyphs, and how many cells stand before them."""
    runs = []
    for place, (glyph, rendition) in enumerate(row.inked()):
        kind = rendition + DRAWN * (glyph in OUTLINES)
        if runs and runs[-1][0] == kind:
            runs[-1][1].append(glyph)
        else:
            runs.append((kind, [glyph], place))
    return runs


def escaped(text):
    return text.replace("&", "&amp;").replace("<", "&lt;").replace(">", "&gt;")


def classes(*names):
    said = " ".join(name for name in names if name)
    return f' class="{said}"' if said else ""


def letters(row, paper):
    spans = [
        '<tspan%s x="%s">%s</tspan>'
        % (
            classes(kind & BOLD and "b", kind & BLINK and "k", "n" if kind & DRAWN else kind & REVERSE and paper),
            " ".join(str(10 * (before + n)) for n in range(len(glyphs))),
            escaped("".join(map(character, glyphs))),
        )
        for kind, glyphs, before in runs_of(row)
    ]
    return f'<text y="15">{"".join(spans)}</text>' if spans else ""


def strokes(row, paper):
    told = ""
    for kind, glyphs, before in runs_of(row):
        path = ""
        if kind & DRAWN:
            path += "".join(f"M{10 * (before + n)} 0{OUTLINES[glyph]}" for n, glyph in enumerate(glyphs))
        if kind & UNDERSCORE:
            path += f"M{10 * before} 17h{10 * len(glyphs)}v1h-{10 * len(glyphs)}z"
        if path:
            told += f'<path{classes(kind & BLINK and "k", kind & REVERSE and paper)} d="{path}"/>'
    return told


def framed(row, line, text):
    y = 20 * line
    if row.size == SINGLE:
        return f'<g transform="translate(0 {y})">{text}</g>\n'
    if row.size == DOUBLE:
        return f'<g transform="matrix(2 0 0 1 0 {y})">{text}</g>\n'
    top = {TOP: 0, BOTTOM: 10}[row.size]
    return f'<svg y="{y}" width="1320" height="20" viewBox="0 {top} 660 10">{text}</svg>\n'


def grounds(screen):
    told = ""
    for line, row in enumerate(screen.rows):
        step = 10 if row.size == SINGLE else 20
        for kind, glyphs, before in runs_of(row):
            if kind & REVERSE:
                width = step * len(glyphs)
                told += f"M{step * before} {20 * line}h{width}v20h-{width}z"
    return told


def picture(screen, seconds):
    """The SVG file of a screen, at a moment as it is written."""
    ink, paper = ("p", "i") if screen.reversed else ("i", "p")
    width = 1340 if screen.wide else 820
    x = 10 * (screen.column - 1)
    cursor = f'<path class="{paper}" d="M{x} 0h10v20h-10zm1 1v18h8v-18z"/><path d="M{x + 1} 1h8v18h-8zm1 1v16h6v-16z"/>'
    return (
        f'<svg xmlns="http://www.w3.org/2000/svg" class="{ink}" viewBox="-10 -10 {width} 500" width="{width}"'
        f' height="500" role="group" aria-label="Screen" xml:space="preserve"><title>Screen at {seconds} s</title>'
        f"<desc>{escaped(plain_text(screen))}</desc><style>{STYLE}</style>\n"
        f'<path class="{paper}" d="M-10 -10h{width}v500h-{width}z"/>\n<path d="{grounds(screen)}"/>\n'
        + "".join(framed(row, line, letters(row, paper) + strokes(row, paper)) for line, row in enumerate(screen.rows))
        + framed(screen.rows[screen.line - 1], screen.line - 1, cursor)
        + "</svg>\n"
    )


# ---- the entries of a page


def said(row):
    """A row as an entry has it."""
    told = [row.size]
    for kind, glyphs, _ in runs_of(row):
        told += [kind, "".join(map(character, glyphs))]
    return json.dumps(told, ensure_ascii=False, separators=(",", ":")).replace("<", "\\u003c")


def entry(before, after, seconds):
    """What a chunk makes of the screen before it."""
    keys = [row.key() for row in before.rows]
    told = [seconds, str(after.wide + 2 * after.reversed), str(after.line), str(after.column)]
    for line, row in enumerate(after.rows):
        if row.key() != keys[line]:
            told += [str(line + 1), str(keys.index(row.key()) + 1) if row.key() in keys else said(row)]
    return "[" + ",".join(told) + "]"


def data(screens, dues):
    """The data of a page: of the screens before the first chunk and after each, and of when the chunks are due."""
    told = ["[0.000000,0,1,1]"]
    told += [entry(*screens[n : n + 2], due) for n, due in enumerate(dues)]
    return "[" + ",\n".join(told) + "]"


def folded(entries):
    """The rows after each entry of a page's data, read as JSON."""
    rows = [[SINGLE]] * 24
    for _, _, _, _, *changes in entries:
        before = list(rows)
        rows = list(rows)
        for line, change in zip(changes[::2], changes[1::2]):
            rows[line - 1] = before[change - 1] if isinstance(change, int) else change
        yield rows
