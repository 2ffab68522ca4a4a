"""What the tests of pages in Chromium share: pages of recordings, what they show, and what is judged."""
import base64
import functools
import os
import re
import struct
import subprocess
import sys
import tempfile
import zlib

import chromium
import plain_reader as plain
import plain_screen
import skip

HERE = os.path.dirname(os.path.abspath(__file__))
ASSETS = os.path.join(HERE, "..", "assets")
EXAMPLES = os.path.join(HERE, "..", "examples")
HEADER = b"Script started on X\n"
# Where the picture of the page and one that was written are the same elements.
SAME = """
(() => {
  const wanted = new DOMParser().parseFromString(%s, 'image/svg+xml').documentElement;
  wanted.removeAttribute('xmlns');
  for (const node of [...wanted.childNodes]) if (node.nodeType === 3) node.remove();
  const shown = document.querySelector('#screen').children;
  return shown.length === 1 && shown[0].isEqualNode(wanted);
})()
"""
# Where the page's picture as a file is one that was written.
SAVED = """
(() => {
  const read = text => new DOMParser().parseFromString(text, 'image/svg+xml').documentElement;
  const wanted = read(%s);
  for (const node of [...wanted.childNodes]) if (node.nodeType === 3) node.remove();
  return read(pictureFile()).isEqualNode(wanted);
})()
"""
# What a control is called.
NAMED = "at.%s.getAttribute('aria-label')"
# What only the file has.
LEFT_OUT = re.compile("<title>.*</title><desc>.*</desc><style>.*</style>", re.DOTALL)
passed, failed = 0, []


def check(name, got, wanted):
    global passed
    if got == wanted:
        passed += 1
    else:
        failed.append(name)
        print(f"FAILED {name}: {str(got)[:300]}, wanted {str(wanted)[:300]}")


class Recording:
    """A recording's chunks, and its screens before the first one and after each."""

    def __init__(self, program, chunks):
        self.program, self.chunks = program, chunks
        self.dues = [sum(delay for delay, _ in chunks[: place + 1]) for place in range(len(chunks))]
        self.escaped = functools.lru_cache(None)(functools.partial(self.printed, program))

    def printed(self, program, count):
        """What `screen --escaped` prints after so many chunks, played alone, so that each count has a moment."""
        with tempfile.TemporaryDirectory() as folder:
            text = b"".join(chunk for _, chunk in self.chunks[:count])
            pieces = [[0, text[start : start + 1000]] for start in range(0, len(text), 1000)]
            words = [program, "screen", "--at", "0", "--escaped", *written(folder, "printed", pieces)]
            return subprocess.run(words, check=True, capture_output=True).stdout

    def screen(self, count):
        return plain_screen.drawn(self.escaped(count))

    def seconds(self, count):
        return plain.written(self.dues[count - 1] if count else 0).decode()

    def page(self, folder, name, *words):
        """The address of the page that the program writes, with these flags."""
        path = os.path.join(folder, f"{name}.html")
        with open(path, "wb") as file:
            subprocess.run([self.program, "page", *words, *written(folder, name, self.chunks)], check=True, stdout=file)
        return f"file://{path}"


def page_of(folder, name, data):
    """The address of a page with this data."""
    paths = [os.path.join(folder, f"{name}.{kind}") for kind in ("json", "html")]
    with open(paths[0], "w", encoding="utf-8") as file:
        file.write(data)
    with open(paths[1], "wb") as file:
        subprocess.run([os.path.join(ASSETS, "make_page.py"), paths[0]], check=True, stdout=file)
    return f"file://{paths[1]}"


def written(folder, name, chunks):
    """The paths of a recording's two files, of these delays and chunks."""
    paths = [os.path.join(folder, f"{name}.{kind}") for kind in ("script", "timing")]
    for path, content in zip(paths, plain.files_of((HEADER, chunks, b""))):
        with open(path, "wb") as file:
            file.write(content)
    return paths


def read(script):
    """The chunks of a recording, by the path of its script."""
    with open(script, "rb") as one, open(script[:-7] + ".timing", "rb") as two:
        return plain.read(one.read(), two.read())[1]


def standing(browser):
    """Moment and count that the page shows."""
    return browser.value("[Number(place.moment.toFixed(6)), place.count]")


def click(browser, x, y, times=1):
    """The mouse is pressed and let go at a place, so many times."""
    for count in range(1, times + 1):
        for kind in ("mousePressed", "mouseReleased"):
            browser.ask("Input.dispatchMouseEvent", type=kind, x=x, y=y, button="left", clickCount=count)


def move(browser, x, y):
    browser.ask("Input.dispatchMouseEvent", type="mouseMoved", x=x, y=y)


def centre(browser, name):
    """Where the middle of an element is."""
    box = (
        f"(({{ left, top, width, height }}) => [left + width / 2, top + height / 2])(at.{name}.getBoundingClientRect())"
    )
    return browser.value(box)


def go(browser, count):
    """Shows the screen after so many chunks, by the address."""
    browser.value(f"location.hash = '#n={count}'; new Promise(done => setTimeout(done))")


def complaints(browser):
    """What went wrong on the page since it was opened."""
    return [event for event in browser.events if event["method"] in ("Runtime.exceptionThrown", "Log.entryAdded")]


# ---- what is seen


def pixels(png):
    """The rows of a PNG file, each of pixels of red, green and blue."""
    at, packed = 8, b""
    while at < len(png):
        length, kind = struct.unpack(">I4s", png[at : at + 8])
        part = png[at + 8 : at + 8 + length]
        if kind == b"IHDR":
            width, height, _, colour = struct.unpack(">IIBB", part[:10])
        elif kind == b"IDAT":
            packed += part
        at += 12 + length
    step = {2: 3, 6: 4}[colour]
    stride, flat, above, rows = width * step, zlib.decompress(packed), bytes(width * step), []
    for line in range(height):
        kind, row = flat[line * (stride + 1)], bytearray(flat[line * (stride + 1) + 1 : (line + 1) * (stride + 1)])
        for i in range(stride):
            left, up = row[i - step] if i >= step else 0, above[i]
            corner = above[i - step] if i >= step else 0
            row[i] = (row[i] + (0, left, up, (left + up) // 2, nearest(left, up, corner))[kind]) & 255
        rows.append([tuple(row[i : i + 3]) for i in range(0, stride, step)])
        above = row
    return rows


def nearest(left, up, corner):
    """Paeth's filter: which of three is the nearest to left + up - corner."""
    far = abs(up - corner), abs(left - corner), abs(left + up - 2 * corner)
    return (left, up, corner)[far.index(min(far))]


def shot(browser, clip):
    """The rows of pixels of a part of the window."""
    told = browser.ask("Page.captureScreenshot", format="png", clip={**clip, "scale": 1})
    return pixels(base64.b64decode(told["data"]))


# After how many chunks the screen has most characters.
FULLEST = """
[...entries.keys()].map(n => [rowsAt(n).map(textOf).join('').length, n]).sort((one, other) => other[0] - one[0])[0][1]
"""


def cells_of(rows, width, height):
    """How bright each cell is on the whole, row by row, in the pixels of a picture of so many units."""
    unit, told = len(rows[0]) / width, []
    for y in range(10, height - 10, 20):
        lines = [[sum(pixel) for pixel in row] for row in rows[int(y * unit) : int((y + 20) * unit)]]
        for x in range(10, width - 10, 10):
            part = [line[int(x * unit) : int((x + 10) * unit)] for line in lines]
            told.append(sum(map(sum, part)) / (3 * sum(map(len, part))))
    return told


def cells(browser):
    """How bright each cell of the screen is."""
    box = browser.value(
        "(({ left, top, width, height }) => [left, top, width, height])(shown.svg.getBoundingClientRect())"
    )
    rows = shot(browser, dict(zip(("x", "y", "width", "height"), box)))
    return cells_of(rows, *map(int, browser.value("shown.svg.getAttribute('viewBox')").split()[2:]))


def check_sketch(browser, name, count=FULLEST):
    """What is drawn of a screen while it moves looks as it does at rest, but for a hint of brightness."""
    browser.ask("Emulation.setEmulatedMedia", features=[{"name": "prefers-reduced-motion", "value": "reduce"}])
    browser.value(f"begin(); stand(0, 0); stand(0, {count}); clearTimeout(sketch.waiting)")
    check(f"{name} is one", browser.value("isSketched()"), True)
    sketched = cells(browser)
    browser.value("rest()")
    resting = cells(browser)
    check(name, [place for place, (one, other) in enumerate(zip(sketched, resting)) if abs(one - other) > 16], [])
    check(f"{name} shows something", len({round(one) for one in resting}) > 1, True)
    browser.ask("Emulation.setEmulatedMedia", features=[])


def run(what, trial):
    """Runs a trial in a browser of its own, with the program's path, and a folder for its files."""
    if not chromium.path():
        skip.skip(what, "chromium")
        return skip.end(0, 0)
    with tempfile.TemporaryDirectory() as folder:
        browser = chromium.Chromium(folder)
        try:
            trial(browser, os.path.abspath(sys.argv[1]), folder)
        finally:
            browser.close()
    return skip.end(passed, len(failed))
