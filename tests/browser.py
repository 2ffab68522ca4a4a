#!/usr/bin/env python3
"""Opens the page of each shipped recording of a VT100 in Chromium, and tries what plays and seeks in it.

    tests/browser.py TYPETOOL

The pages are those that `page` writes; tests/page_data.py compares their entries. Each count of a recording, in random
order, shows the text of `screen` and the elements of the picture; each key and control does what it says, a click that
ends where its row is drawn anew too; the address shows the moment and is read; the poster, the strip, the found
moments. 100,000 chunks are opened and sought in. What a page looks like is tried by browser_look.py, one of today by
browser_today.py. The last line is 'N passed, M failed'.
"""
import glob
import json
import os
import random
import sys

import page_browser
import plain_find
import plain_picture
import plain_screen
from page_browser import (
    FULLEST,
    LEFT_OUT,
    NAMED,
    SAME,
    SAVED,
    Recording,
    check,
    check_sketch,
    click,
    go,
    page_of,
    standing,
)


def shipped():
    """Name and chunks of each shipped recording."""
    for folder in (page_browser.EXAMPLES, os.path.join(page_browser.HERE, "recordings")):
        for script in sorted(glob.glob(f"{folder}/*.script")):
            yield os.path.basename(script)[:-7], page_browser.read(script)


def try_counts(browser, name, recording, address):
    """Every count in random order: its text, its picture, and what is told of it."""
    browser.open(address)
    counts = list(range(len(recording.chunks) + 1))
    random.Random(name).shuffle(counts)
    wrong = []
    for count in counts:
        screen = recording.screen(count)
        go(browser, count)
        picture = LEFT_OUT.sub("", plain_picture.picture(screen, recording.seconds(count)))
        same = browser.value(SAME % json.dumps(picture))
        text = browser.value("plainText(rowsAt(place.count))") == plain_screen.plain_text(screen)
        told = browser.value("at.now.textContent").endswith(f"chunk {count} of {len(recording.chunks)}")
        if not (same and text and told):
            wrong.append((count, same, text, told))
    check(f"{name}: counts", wrong, [])


def try_keys(browser, recording, address):
    """Each key, from a moment where it shows."""
    browser.open(address + "#t=7")
    length, last = recording.dues[-1] / 1e6, len(recording.chunks)

    def due(moment):
        return sum(us <= round(moment * 1e6) for us in recording.dues)

    def after(key):
        browser.press(key)
        return standing(browser)

    check("address", standing(browser), [7, due(7)])
    check("right", after("ArrowRight"), [12, due(12)])
    check("left", after("ArrowLeft"), [7, due(7)])
    check("next chunk", after("."), [recording.dues[due(7)] / 1e6, due(7) + 1])
    check("last chunk", after(","), [recording.dues[due(7) - 1] / 1e6, due(7)])
    check("end", after("End"), [length, last])
    check("past the end", after("."), [length, last])
    check("home", after("Home"), [0, due(0)])
    check("before the beginning", after("ArrowLeft"), [0, due(0)])
    for tenth in range(10):
        check(f"tenth {tenth}", after(str(tenth))[0], round(length * tenth / 10, 6))
    speeds = [browser.press(key) or browser.value("at.speed.value") for key in ">>>>>><<<<<<<>"]
    wanted = ["2", "4", "8", "16", "16", "16", "8", "4", "2", "1", "0.5", "0.5", "0.5", "1"]
    check("speeds", speeds, wanted)
    browser.press("/")
    check("find's key", browser.value("document.activeElement.id"), "text")
    for key in "1.<":
        browser.press(key)
    check("keys in the field", browser.value("at.text.value"), "1.<")
    browser.value("at.text.value = ''; at.text.blur()")


# Frames that come when the test says so, and where the player stands then.
HELD = "window.requestAnimationFrame = act => { window.frame = act; return 0; }"
TICK = "(() => { frame(playing.time + %d); return [Number(place.moment.toFixed(6)), place.count]; })()"


def try_playing(browser, recording, address):
    """Playing by a clock that is held: pausing, speed, the greatest idle time, the end, and from there anew."""
    browser.open(address)
    browser.value(HELD)
    browser.value("at.speed.value = '1'; at.idle.value = 'Infinity'")
    due, end = [us / 1e6 for us in recording.dues], recording.dues[-1] / 1e6

    def stands(moment):
        return [moment, sum(one <= moment for one in due)]

    browser.press(" ")
    check("play is told", browser.value(NAMED % "play"), "Pause")
    check("a second of playing", browser.value(TICK % 1000), stands(1))
    browser.value("at.speed.value = '4'")
    check("at another speed", browser.value(TICK % 250), stands(2))
    browser.press(" ")
    check("pause is told", browser.value(NAMED % "play"), "Play")
    check("pause", browser.value("playing"), None)
    check("the address after a pause", browser.value("location.hash"), "#t=2")
    gap = max(range(1, len(due)), key=lambda n: due[n] - due[n - 1])
    browser.value(f"seek({due[gap - 1]}); at.idle.value = '0.5'; at.play.click()")
    check("a long wait is cut", browser.value(TICK % 0), stands(round(due[gap] - 0.5, 6)))
    browser.value(f"at.idle.value = 'Infinity'; frame(playing.time + {round(end * 1000)})")
    check("playing to the end", [standing(browser), browser.value("playing")], [[end, len(due)], None])
    browser.press("k")
    check("and from the beginning", [standing(browser)[0], browser.value("playing !== null")], [0, True])


def try_controls(browser, recording, address):
    """The slider, the steps, the gaps, the address, copying, drawing only what changed."""
    browser.open(address)
    last = len(recording.chunks)
    browser.value("at.time.value = 3; at.time.dispatchEvent(new Event('input'))")
    check("the slider", standing(browser), [3, sum(us <= 3e6 for us in recording.dues)])
    check("the slider's address", browser.value("location.hash"), "#t=3")
    check(
        "the slider's text", browser.value("at.time.getAttribute('aria-valuetext')").startswith("3.000 seconds"), True
    )
    count = standing(browser)[1]
    browser.value("at.on.click()")
    check("chunk on", standing(browser)[1], count + 1)
    check("its address", browser.value("location.hash"), f"#n={count + 1}")
    browser.value("at.back.click(); at.back.click()")
    check("chunk back", standing(browser)[1], count - 1)
    idle = [b - a >= 1_000_000 for a, b in zip([0, *recording.dues], recording.dues)]
    stretches = sum(now and not before for before, now in zip([False, *idle], idle))
    for name in ("idles", "idlesDone"):
        check(f"idle stretches, {name}", browser.value(f"at.{name}.getAttribute('d').split('M').length - 1"), stretches)
    browser.value("location.hash = '#t=999999'; new Promise(done => setTimeout(done))")
    check("an address past the end", standing(browser)[1], last)
    browser.value("location.hash = '#elsewhere'; new Promise(done => setTimeout(done))")
    check("another address", standing(browser)[1], last)
    browser.value("document.execCommand = () => { window.copied = document.activeElement.value; }")
    browser.value("Object.defineProperty(navigator, 'clipboard', { value: undefined }); copyText()")
    check("copying", browser.value("copied"), plain_screen.plain_text(recording.screen(last)))
    kept = """
    (() => {
      seekCount(%d);
      const before = [...shown.elements], rows = rowsAt(%d);
      seekCount(%d);
      return rowsAt(%d).map((row, i) => (row === rows[i]) === (shown.elements[i] === before[i])).every(Boolean);
    })()
    """
    check("only changed rows are drawn", browser.value(kept % (count, count, count + 1, count + 1)), True)


def try_find(browser, recording, address, text):
    """The moments of a text are the chunks after which it came to stand there."""
    browser.open(address)
    browser.press("/")
    browser.until("document.activeElement === at.text")
    browser.value(f"at.text.value = {json.dumps(text)}")
    browser.press("Enter")
    browser.until("at.found.textContent !== ''")
    screens = [plain_find.rows_of(recording.escaped(count)) for count in range(len(recording.chunks) + 1)]
    dues = [recording.seconds(count + 1) for count in range(len(recording.chunks))]
    lines = plain_find.find_lines(list(zip(screens, screens[1:])), dues, range(len(dues)), None, text).splitlines()
    wanted = [words for words in (line.split(" ", 5) for line in lines) if words[0] == "+"]
    listed = "[...at.moments.querySelectorAll('button')].map(button => [button.title, button.children[1].textContent])"
    told = browser.value(listed)
    check(f"find {text!r}, when", [when for when, _ in told], [words[2] for words in wanted])
    rows = [(shown.lstrip("…"), words[5]) for (_, shown), words in zip(told, wanted)]
    check(f"find {text!r}, rows", [row for row in rows if text not in row[0] or not row[1].endswith(row[0])], [])
    check("how many", browser.value("at.found.textContent").split(" ")[0], str(len(wanted)))
    marks = browser.value("at.marks.getAttribute('d').split('M').length - 1")
    check("marks on the strip", 0 < marks <= len(wanted), True)
    browser.value("at.moments.querySelector('button').click()")
    check("going there", standing(browser)[1], int(wanted[0][1]) + 1)
    check("what is lit", browser.value("finds.lit"), 0)
    browser.value("at.text.blur()")
    stepped = [browser.press(key) or standing(browser)[1] for key in "n" * len(wanted) + "N"]
    counts = [int(words[1]) + 1 for words in wanted]
    check("stepping through", stepped, counts[1:] + [counts[0], counts[-1]])
    browser.value("at.text.value = 'x'.repeat(99); listMoments()")
    check("none", browser.value("[at.found.textContent, at.marks.getAttribute('d')]"), ["0 moments", ""])
    browser.press("n")
    check("stepping through none", standing(browser)[1], counts[-1])


def try_poster(browser, recording, address):
    """Before anything is asked for the middle stands under a large Play, and a click plays."""
    drawn = "[at.figure.classList.contains('begun'), shown.count, place.moment]"
    middle = sum(us <= recording.dues[-1] / 2 for us in recording.dues)
    browser.open(address)
    check("the poster", browser.value(drawn), [False, middle, 0])
    check("the poster's length", browser.value("at.length.textContent"), "0:14")
    width = browser.value("at.poster.firstElementChild.getBoundingClientRect().width")
    check("the poster's Play", [width, browser.value(NAMED % "poster")], [96, "Play the recording"])
    click(browser, 100, 200)
    check(
        "a click on the poster", browser.value("[playing !== null, at.figure.classList.contains('begun')]"), [True] * 2
    )
    click(browser, 100, 200)
    check("a click on the screen", browser.value("playing"), None)
    click(browser, 100, 200, 2)
    check("a double click", browser.value("[at.player.classList.contains('filled'), playing]"), [True, None])
    box = "(({ left, right, top }) => [left, innerWidth - right, top])(at.figure.getBoundingClientRect())"
    check("the screen fills the window", browser.value(box), [0, 0, 0])
    browser.press("Escape")
    check("and leaves it", browser.value("at.player.classList.contains('filled')"), False)
    for key in "kK":
        browser.press(key)
        check(f"{key} plays", browser.value("playing !== null"), True)
        browser.press(key)
        check(f"{key} pauses", browser.value("playing"), None)
    browser.open(address + "#t=7")
    check("the poster of an address", browser.value(drawn)[::2], [False, 7])


def try_address(browser, recording, address):
    """Chunks by the numbers that `find` tells, and an address that can't be written."""
    browser.open(address + "#chunk=77")
    check("the screen after a chunk", standing(browser)[1], 78)
    browser.open(address)
    browser.value("history.replaceState = () => { throw new Error('not here'); }; seek(3); location.hash")
    check("an address that can't be written", standing(browser)[0], 3)
    browser.value(
        "Object.defineProperty(navigator, 'clipboard', { value: { writeText: text => { window.put = text; } } })"
    )
    browser.value("copyLink()")
    check("the link", browser.value("put"), f"{address}#t=3")
    check("its word", browser.value("at.answer.textContent"), "link copied")
    wanted = plain_picture.picture(recording.screen(standing(browser)[1]), "3.000000")
    check("the saved picture", browser.value(SAVED % json.dumps(wanted)), True)
    browser.value("window.saved = []; HTMLAnchorElement.prototype.click = function () { saved.push(this.download); }")
    browser.value("savePicture()")
    wanted = [f"screen-{standing(browser)[1]}.svg", "picture saved"]
    check("its file", browser.value("[saved.join(), at.answer.textContent]"), wanted)


def try_clicks(browser, address):
    """A click also counts where the rows are drawn anew between its ends; one that selects text doesn't."""

    def mouse(kind, x, y, **more):
        browser.ask("Input.dispatchMouseEvent", type=kind, x=x, y=y, button="left", clickCount=1, **more)

    browser.open(address + "#t=7")
    browser.value(f"{HELD}; begin(); rest()")
    x, y = browser.value(
        "(({ left, top }) => [left + 8, top + 8])(document.querySelector('tspan').getBoundingClientRect())"
    )
    for told, wanted in (("plays", True), ("pauses", False)):
        mouse("mousePressed", x, y)
        browser.value("for (const n of [1, last - 1]) stand(entries[n][0], n)")
        mouse("mouseReleased", x, y)
        check(f"a click over rows that are drawn anew {told}", browser.value("playing !== null"), wanted)
    browser.value("seek(7); rest()")
    mouse("mousePressed", x, y)
    mouse("mouseMoved", x + 90, y, buttons=1)
    mouse("mouseReleased", x + 90, y)
    selected = browser.value("[getSelection().toString().length > 3, playing]")
    check("text that is selected", selected, [True, None])
    browser.value("getSelection().removeAllRanges()")
    mouse("mousePressed", 5, 5)
    mouse("mouseMoved", x, y, buttons=1)
    mouse("mouseReleased", x, y)
    check("a click that began elsewhere", browser.value("playing"), None)


# What a seek from a count to another one does with the elements of rows: how many stay, are they in order, and how many
# stay on their line. %s: two counts.
KEPT = """
((from, to) => {
  seekCount(from);
  const before = [...shown.elements];
  seekCount(to);
  const places = shown.elements.map(element => before.indexOf(element));
  const stay = places.filter(place => place >= 0);
  const children = [...shown.svg.children].slice(2, -1);
  const same = shown.elements.every((element, i) => element === children[i]);
  return [stay.length, stay.every((place, i) => i === 0 || stay[i - 1] < place), same];
})(%s, %s)
"""


def try_large(browser, folder):
    """100,000 chunks, each a changed line, and from the 25th on a scroll."""
    entries = ["[0.000000,0,1,1]"]
    for n in range(1, 100_001):
        line, changes = min(n, 24), []
        if n > 24:
            changes = [f"{row},{row + 1}" for row in range(1, 24)]
        changes.append(f'{line},[0,0,"line {n} of a long session"]')
        entries.append(f"[{n / 10:.6f},0,{line},30,{','.join(changes)}]")
    browser.open(page_of(folder, "large", "[" + ",\n".join(entries) + "]"))
    check("a scroll keeps 23 rows", browser.value(KEPT % (5000, 5001)), [23, True, True])
    check("three back keep 21", browser.value(KEPT % (5001, 4998)), [21, True, True])
    check("far away none is kept", browser.value(KEPT % (4998, 90_000)), [0, True, True])
    rng, wrong = random.Random(1), []
    for count in [0, 1, 63, 64, 65, 100_000, *(rng.randrange(100_001) for _ in range(100))]:
        browser.value(f"seekCount({count})")
        first = max(1, count - 23)
        text = "".join(f"line {n} of a long session\n" for n in range(first, count + 1))
        if (
            browser.value("[...shown.svg.querySelectorAll('text')].map(text => text.textContent + '\\n').join('')")
            != text
        ):
            wrong.append(count)
    check("rows of a large page", wrong, [])


def try_sketch(browser, address):
    """Many new letters are drawn on a canvas until the screen rests; the elements are there all the while."""
    seen = """
    [isSketched(), ...['#sketch', '#screen text'].map(name => getComputedStyle(document.querySelector(name)).display)]
    """
    browser.open(address)
    check("the poster is no sketch", browser.value(seen), [False, "none", "block"])
    browser.value("stand(0, 0); begin()")
    drawn = """
    (() => {
      stand(0, %s);
      return [...%s, sketch.pen.getImageData(0, 0, at.sketch.width, at.sketch.height).data.some(n => n > 0)];
    })()
    """
    check("a sketch", browser.value(drawn % (FULLEST, seen)), [True, "block", "none", True])
    browser.until("!isSketched()")
    check("a screen at rest", browser.value(seen), [False, "none", "block"])
    check_sketch(browser, "the sketch")
    double = """
    [...entries.keys()].find(n => rowsAt(n).some(([size]) => size > DOUBLE) && textOf(rowsAt(n).flat()).length > 500)
    """
    check_sketch(browser, "the sketch of double height", double)
    browser.press("f")
    check_sketch(browser, "the sketch of a filled window")
    browser.ask("Emulation.setDeviceMetricsOverride", width=1400, height=700, deviceScaleFactor=1.5, mobile=False)
    check_sketch(browser, "the sketch at another scale")
    browser.press("Escape")
    browser.ask("Emulation.clearDeviceMetricsOverride")
    browser.value(f"stand(0, 0); stand(0, {FULLEST})")
    browser.ask("Emulation.setEmulatedMedia", media="print")
    check("a sketch isn't printed", browser.value(seen)[1:], ["none", "block"])
    browser.ask("Emulation.setEmulatedMedia", media="")


def trial(browser, program, folder):
    for name, chunks in shipped():
        recording = Recording(program, chunks)
        address = recording.page(folder, name)
        try_counts(browser, name, recording, address)
        check(f"{name}: title", browser.value("document.title"), name)
        if name == "tour":
            for tried in (try_keys, try_playing, try_controls, try_poster, try_address):
                tried(browser, recording, address)
            try_find(browser, recording, address, "seconds")
            try_clicks(browser, address)
        if name == "vttest":
            try_sketch(browser, address)
    try_large(browser, folder)


if __name__ == "__main__":
    sys.exit(page_browser.run("the player of a page", trial))
