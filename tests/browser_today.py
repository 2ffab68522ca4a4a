#!/usr/bin/env python3
"""Opens pages of recordings of today in Chromium, and compares each screen with what `picture --profile xterm` draws.

    tests/browser_today.py TYPETOOL

The pages are those that `page --profile xterm` writes. Of a recording by hand, of the shipped one, and of three that
are made here (an editor with highlighting, a file manager, a shell with CJK, emoji and marks; vim and mc where they are
installed) each count, in random order, shows the elements of `picture`; of random streams those of the plain picture,
and its text. In the former each character stands within half a unit of its column, and a row's text is copied as it is
written. Only what changed is drawn; what runs on over a margin is found. No seam stands between grounds at three scales
of the device, by the pixels of screenshots; so is seen that a screen in motion looks as it does at rest, and that rsvg
draws the same. The palette is the picture's, and can be read; data are at most 2.5 times what was recorded. The last
line is 'N passed, M failed'.
"""
import json
import os
import random
import subprocess
import sys

import page_browser
import plain_reader
import plain_today
import plain_today_drawing
import random_today
import skip
import today_recordings
from page_browser import (
    FULLEST,
    LEFT_OUT,
    SAME,
    SAVED,
    Recording,
    cells,
    cells_of,
    check,
    check_sketch,
    complaints,
    go,
    pixels,
    shot,
    written,
)

# A recording of today on 12 columns and 3 lines: colours, marks, both widths, what is drawn, a hidden cursor,
# a reversed screen, what a list of places doesn't serve, a cursor on a right half, rows that move, a text over
# the margin, Hebrew between brackets.
TODAY = (
    "\x1b[1;31mab\x1b[0;2;44m日\x1b[7m─e\u0301\x1b[m\r\n\x1b[38;2;1;2;3;9m<😀\x1b[m",
    "\x1b[2;3Hx\x1b[?25l",
    "\x1b[?5h\x1b[?25h",
    "\x1b[H\x1b[7;3mA⣿⠁⠀\x1b[8;4mhid─\x1b[m  \x1b[41m \x1b[m",
    "\x1b[3;1H\x1b[4;5mZ─x\ufffe\u2028y\u00adz\ue0b0日",
    "\x1b[3;11H",
    "\n\n",
    "\x1b[48;5;200;38;5;250mQ\x1b[1;33;7mR\x1b[?5l",
    "\x1b[m\x1b[H\x1b[2J0123456789a日b\x1b[3;1Hthe  end\u3000",
)
FOUND = {"a日": 1, "9a": 1, "the  end": 1, "\u3000": 1, "本": 0}
HEBREW = "\x1b[H(\u05d0\u05d1) 1 <\u05d2>"
# What this recording's first chunk changes, written by hand.
FIRST_ENTRY = (
    '[0.500000,0,2,4,1,[0,1,2,"ab",544,0,5,"日",56,0,5,"─",1064,0,5,"e\u0301"],'
    '2,[0,256,66308,"\\u003c",768,66308,"\U0001f600"]]'
)
MADE = ("vim", "mc", "shell")
# Characters that stand more than half a unit from their column: each has a place of its own in the list of its element.
ASTRAY = """
[...document.querySelectorAll('#screen tspan')].flatMap(span => {
  const places = span.getAttribute('x').split(' ').map(Number);
  return places.map((place, i) => Math.abs(span.getStartPositionOfChar(i).x - place)).filter(off => off > 0.5);
}).length
"""
# Rows whose selected text isn't what the entry says.
COPIED = """
shown.rows.filter((row, i) => {
  const text = shown.elements[i].querySelector('text');
  if (!text) return false;
  getSelection().selectAllChildren(text);
  const told = getSelection().toString();
  getSelection().removeAllRanges();
  const said = runsOf(row).filter(run => !(run.kind & CONCEALED)).map(run => run.characters.join('')).join('');
  return told.trim() !== allowed(said).trim();
}).map(textOf)
"""


def page_of(program, folder, name, size, chunks):
    """The address of the page of these chunks, half a second apart."""
    recording = Recording(program, [(500_000, chunk) for chunk in chunks])
    return recording.page(folder, name, "--profile", "xterm", "--size", "%dx%d" % size)


def pictures(program, folder, size, chunks):
    """What `picture --profile xterm` draws after each count of chunks, as elements of a page."""
    paths = written(folder, "pictured", [(500_000, chunk) for chunk in chunks])
    words = [program, "picture", "--profile", "xterm", "--size", "%dx%d" % size, *paths, "--at"]
    for count in range(len(chunks) + 1):
        told = subprocess.run([*words, str(count / 2)], check=True, capture_output=True).stdout
        yield LEFT_OUT.sub("", told.decode())


def plain_pictures(size, chunks):
    """The same as the plain reading draws it, and the plain text."""
    terminal = plain_today.Terminal(*size)
    for chunk in (b"", *chunks):
        terminal.feed(chunk)
        picture = plain_today_drawing.picture(terminal, "0.000000")
        yield LEFT_OUT.sub("", picture), plain_today.plain_text(terminal)


def try_counts(browser, name, address, size, screens):
    """Each count in random order: its picture, and its text where there is one."""
    browser.open(address)
    counts = list(range(len(screens)))
    random.Random(name).shuffle(counts)
    wrong = []
    for count in counts:
        picture, text = screens[count]
        go(browser, count)
        same = browser.value(SAME % json.dumps(picture))
        printed = text is None or browser.value("plainText(rowsAt(place.count))") == text
        if not (same and printed):
            wrong.append((count, same, printed))
    check(f"{name}: counts", wrong, [])
    told = browser.value("at.facts.textContent")
    check(f"{name}: size", told, f"{size[0]} x {size[1]}, {len(screens) - 1} chunks")
    check(f"{name}: complaints", complaints(browser), [])


def try_places(browser, name, many):
    """At some counts: each character is at its column, and a row is copied as it is written."""
    wrong = []
    for count in sorted({many * part // 6 for part in range(1, 7)}):
        browser.value(f"seekCount({count}); rest()")
        astray, copied = browser.value(ASTRAY), browser.value(COPIED)
        if astray or copied:
            wrong.append((count, astray, copied))
    check(f"{name}: columns and copied text", wrong, [])


def try_recording(browser, program, folder, name, size, chunks):
    """A recording whose every count shows what `picture` draws."""
    address = page_of(program, folder, name, size, chunks)
    screens = [(picture, None) for picture in pictures(program, folder, size, chunks)]
    try_counts(browser, name, address, size, screens)
    try_places(browser, name, len(chunks))


def try_hand(browser, program, folder):
    """The recording by hand: its data, what is drawn anew, what is found, the saved picture."""
    size, chunks = (12, 3), [text.encode() for text in TODAY]
    try_recording(browser, program, folder, "hand", size, chunks)
    data = plain_today_drawing.data(size, chunks[:1], ["0.500000"])
    check("an entry of today", data, f"[[12,3],\n[0.000000,0,1,1],\n{FIRST_ENTRY}]")
    kept = """
    (() => {
      seekCount(4);
      const before = [...shown.elements], grounds = [...shown.ground.children], rows = rowsAt(4);
      seekCount(5);
      const same = rowsAt(5).map((row, i) => (row === rows[i]) === (shown.elements[i] === before[i])).every(Boolean);
      return same && grounds.length > 0 && grounds.every((path, i) => path === shown.ground.children[i]);
    })()
    """
    check("only changed rows are drawn today", browser.value(kept), True)
    moved = (
        "(() => { seekCount(6); const row = shown.elements[2]; seekCount(7); return shown.elements.indexOf(row); })()"
    )
    check("a row that moved keeps what draws it", browser.value(moved), 0)
    hidden = "(() => { seekCount(1); const svg = shown.svg; seekCount(2); return svg === shown.svg; })()"
    check("a hidden cursor draws nothing else", browser.value(hidden), True)
    for text, many in FOUND.items():
        browser.value(f"at.text.value = {json.dumps(text)}; listMoments()")
        check(f"find today {text!r}", browser.value("finds.list.length"), many)
    terminal = plain_today.Terminal(*size)
    terminal.feed("".join(TODAY).encode())
    picture = plain_today_drawing.picture(terminal, "4.500000")
    browser.value("seekCount(9)")
    check("the saved picture of today", browser.value(SAVED % json.dumps(picture)), True)


def try_directions(browser, program, folder):
    """Text from right to left is isolated in each piece, and stands in its columns; other text needs no isolation."""
    isolated = "getComputedStyle(document.querySelector('#screen tspan')).unicodeBidi"
    browser.open(page_of(program, folder, "latin", (12, 3), [b"(ab)"]) + "#n=1")
    check("Latin text", browser.value(isolated), "normal")
    browser.open(page_of(program, folder, "hebrew", (12, 3), [HEBREW.encode()]) + "#n=1")
    check("Hebrew text", [browser.value(isolated), browser.value(ASTRAY)], ["isolate-override", 0])


def try_random(browser, program, folder):
    """Random streams, against the plain reading."""
    for number in range(6):
        rng = random.Random(number)
        chunks = [random_today.stream(rng)[:200] for _ in range(40)]
        chunks, size = [chunk for chunk in chunks if chunk], (rng.choice([2, 20, 80]), rng.choice([1, 5, 24]))
        address = page_of(program, folder, f"random-{number}", size, chunks)
        try_counts(browser, f"random {number}", address, size, list(plain_pictures(size, chunks)))


def try_size(browser, name, chunks):
    """The data is at most two and a half times as long as what was recorded."""
    data = browser.value("new TextEncoder().encode(data).length")
    check(f"{name}: the data's length", data <= 2.5 * sum(map(len, chunks)), True)


def light(colour):
    """The luminance of a colour by its six hex digits, as WCAG reckons it."""
    parts = [part / 255 for part in bytes.fromhex(colour)]
    return sum(
        weight * (part / 12.92 if part <= 0.04045 else ((part + 0.055) / 1.055) ** 2.4)
        for weight, part in zip((0.2126, 0.7152, 0.0722), parts)
    )


def try_palette(browser, program, folder):
    """The player's palette is the picture's, and its inks can be read on the default ground."""
    browser.open(page_of(program, folder, "palette", (12, 3), [b"a"]))
    colours = browser.value("[...Array(256).keys()].map(n => painted(n + 1, '').slice(1))")
    check("the palette", colours, [plain_today_drawing.palette(number) for number in range(256)])
    check("the default ground", browser.value("PAINTS.p"), "#111")
    ground = light("111111")
    dim = [n for n in range(1, 16) if n not in (4, 8) and (light(colours[n]) + 0.05) / (ground + 0.05) < 4.4]
    check("inks on the default ground", dim, [])
    check("blue on it", (light(colours[4]) + 0.05) / (ground + 0.05) > 3.3, True)


def try_made(browser, program, folder):
    """Recordings of today: the shipped one, and three that are made here."""
    chunks = [text for _, text in page_browser.read(os.path.join(page_browser.EXAMPLES, "today", "greet.script"))]
    try_recording(browser, program, folder, "greet", (72, 20), chunks)
    try_size(browser, "greet", chunks)
    with open(os.path.join(folder, "text.md"), "w", encoding="utf-8") as file:
        file.write(today_recordings.TEXT)
    for name, columns, lines, needed, command, keys in today_recordings.RECORDINGS:
        if name not in MADE or skip.lacks("script", f"the page of {name}") or skip.lacks(needed, f"the page of {name}"):
            continue
        today_recordings.record(folder, name, columns, lines, command, keys)
        path = os.path.join(folder, name)
        recorded = plain_reader.read(today_recordings.read(f"{path}.script"), today_recordings.read(f"{path}.timing"))
        chunks = [text for _, text in recorded[1]]
        try_recording(browser, program, folder, f"made-{name}", (columns, lines), chunks)
        try_size(browser, f"made-{name}", chunks)
        check_sketch(browser, f"made-{name}: the sketch")
        try_rsvg(browser, program, folder, f"made-{name}", (columns, lines))


def try_rsvg(browser, program, folder, name, size):
    """rsvg draws the picture of the fullest screen as the browser does, but for what their fonts differ in."""
    if skip.lacks("rsvg-convert", f"what rsvg draws of {name}"):
        return
    browser.value(f"seekCount({FULLEST}); rest()")
    wide, count = browser.value("[Math.round(shown.svg.getBoundingClientRect().width), place.count]")
    paths = [os.path.join(folder, f"{name}.{kind}") for kind in ("script", "timing")]
    words = [program, "picture", "--profile", "xterm", "--size", "%dx%d" % size, *paths, "--at", str(count / 2)]
    picture = subprocess.run(words, check=True, capture_output=True).stdout
    drawn = subprocess.run(["rsvg-convert", "-w", str(wide)], input=picture, check=True, capture_output=True).stdout
    ours, theirs = cells(browser), cells_of(pixels(drawn), 10 * size[0] + 20, 20 * size[1] + 20)
    off = [abs(one - other) for one, other in zip(ours, theirs)]
    check(f"{name}: what rsvg draws", [max(off) < 48, sum(off) / len(off) < 5], [True, True])


# ---- seams


# Two lines of eight grounds, two columns each, with nothing on them, and one of one ground, reversed in the middle.
GROUNDS = "".join(f"\x1b[{line};1H" + "".join(f"\x1b[4{(n + line) % 8}m  " for n in range(8)) for line in (1, 2))
GROUNDS += "\x1b[3;1H\x1b[42m     \x1b[0;32;7m     \x1b[0;42m      \x1b[?25l"


def try_seams(browser, program, folder):
    """Between grounds stands no other colour, whatever the scale of the device and of the page."""
    address = page_of(program, folder, "seams", (16, 3), [GROUNDS.encode()])
    for scale in (1, 1.25, 1.5):
        for width in (390, 801, 1280):
            browser.ask(
                "Emulation.setDeviceMetricsOverride", width=width, height=700, deviceScaleFactor=scale, mobile=False
            )
            browser.open(address + "#n=1")
            browser.value("begin(); new Promise(done => requestAnimationFrame(() => setTimeout(done, 100)))")
            colours = browser.value("[...shown.ground.children].map(path => path.getAttribute('fill'))")
            box = """
            (({ left, top, width, height }) => {
              const unit = width / 180;
              return { x: left + 12 * unit, y: top + 12 * unit, width: 156 * unit, height: 56 * unit, scale: 1 };
            })(shown.svg.getBoundingClientRect())
            """
            seen = {colour for row in shot(browser, browser.value(box)) for colour in row}
            wanted = {tuple(bytes.fromhex(colour[1:])) for colour in colours}
            check(f"seams at {scale}, {width} pixels", seen - wanted, set())
            check(f"grounds at {scale}, {width} pixels", len(seen), 8)
    browser.ask("Emulation.clearDeviceMetricsOverride")


def trial(browser, program, folder):
    for tried in (try_hand, try_directions, try_palette, try_random, try_made, try_seams):
        tried(browser, program, folder)


if __name__ == "__main__":
    sys.exit(page_browser.run("the player of a page of today", trial))
