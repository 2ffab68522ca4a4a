#!/usr/bin/env python3
"""Looks at pages in Chromium as readers do: by eye, by keyboard alone, by a screen reader, on paper, without a script.

    tests/browser_look.py TYPETOOL [FOLDER]

The pages are those that `page` writes of a recording of a VT100 and of one of today. Contrast in light and dark;
windows of 390, 800 and 1280 pixels, and the sizes of what is pressed; print; the accessibility tree: each control has a
name; what a screen reader is told, and how often; each control reached and used by keys; times, the label over the
strip, the titles; a page that may not write its address; what is said without a script; that nothing is fetched. With a
FOLDER screenshots are left there. The last line is 'N passed, M failed'.
"""
import functools
import http.server
import os
import sys
import threading
import time

import page_browser
from page_browser import Recording, centre, check, click, complaints, move, standing

# The texts of a page whose contrast to what they stand on is below 4.5.
FAINT = """
(() => {
  const pen = document.createElement('canvas').getContext('2d', { willReadFrequently: true });
  const light = colours => {
    for (const colour of colours) {
      pen.fillStyle = colour;
      pen.fillRect(0, 0, 1, 1);
    }
    const parts = [...pen.getImageData(0, 0, 1, 1).data].slice(0, 3).map(n => n / 255);
    const [r, g, b] = parts.map(n => n <= 0.04045 ? n / 12.92 : ((n + 0.055) / 1.055) ** 2.4);
    return 0.2126 * r + 0.7152 * g + 0.0722 * b;
  };
  const under = element => getComputedStyle(element).backgroundColor;
  const grounds = element => element ? [...grounds(element.parentElement), under(element)] : [];
  const ratio = element => {
    const [one, two] = [light([getComputedStyle(element).color]), light(grounds(element))];
    return (Math.max(one, two) + 0.05) / (Math.min(one, two) + 0.05);
  };
  const texts = 'h1, #facts, #clock, #count, #found, select, #text, summary, dd, code, .moment, .row, mark, #under';
  const low = [...document.querySelectorAll(texts)].filter(element => ratio(element) < 4.5);
  return low.map(element => element.outerHTML);
})()
"""
# What can be pressed that is smaller than so many pixels.
SMALL = """
[...document.querySelectorAll('button, select, #text')].filter(element => {
  const { width, height } = element.getBoundingClientRect();
  return element.offsetParent && (width < %d || height < %d);
}).map(element => element.id)
"""
# What can be pressed, or is told, that isn't inside the window's width.
OUTSIDE = """
[...document.querySelectorAll('button, select, input, h1, figure, #card, p')].filter(element => {
  const { left, right, width } = element.getBoundingClientRect();
  return element.offsetParent && width && (left < 0 || right > innerWidth);
}).map(element => element.id || element.tagName)
"""
CONTROLS = {
    "button",
    "slider",
    "searchbox",
    "combobox",
    "popUpButton",
    "link",
    "checkbox",
    "textbox",
    "disclosureTriangle",
}
CONTROLS |= {"DisclosureTriangle", "ComboBoxMenuButton"}


def picture(browser, name):
    if len(sys.argv) > 2:
        browser.picture(os.path.join(sys.argv[2], f"{name}.png"))


def sized(browser, width, height=900):
    browser.ask("Emulation.setDeviceMetricsOverride", width=width, height=height, deviceScaleFactor=1, mobile=False)


def scheme(browser, name):
    browser.ask("Emulation.setEmulatedMedia", features=[{"name": "prefers-color-scheme", "value": name}])


def try_colours(browser, name, address, text):
    """Contrast in light and dark, and the button that turns them around until the page is opened anew."""
    ground = "getComputedStyle(document.body).backgroundColor"
    grounds = {}
    for told in ("light", "dark"):
        scheme(browser, told)
        browser.open(address)
        grounds[told] = browser.value(ground)
        picture(browser, f"{name}-poster-{told}")
        browser.value(
            f"at.text.value = '{text}'; listMoments(); showFind(0); document.querySelector('details').open = true"
        )
        check(f"{name}: contrast, {told}", browser.value(FAINT), [])
        browser.value("rest()")
        picture(browser, f"{name}-{told}")
    for told, other in (("light", "dark"), ("dark", "light")):
        scheme(browser, told)
        browser.open(address)
        browser.value(f"at.text.value = '{text}'; listMoments(); showFind(0); at.theme.click()")
        check(f"{name}: turned around, {told}", browser.value(ground), grounds[other])
        check(f"{name}: contrast, turned around, {told}", browser.value(FAINT), [])
        browser.open(address)
        check(f"{name}: opened anew, {told}", browser.value(ground), grounds[told])
    browser.ask("Emulation.setEmulatedMedia", features=[])


def try_widths(browser, name, address, text):
    """Windows of some widths hold all of it; what is pressed is large enough, for a finger too."""
    for width in (360, 390, 800, 1280):
        sized(browser, width)
        browser.open(address)
        browser.value(f"at.text.value = '{text}'; listMoments(); document.querySelector('details').open = true")
        whole = browser.value("document.documentElement.scrollWidth <= innerWidth")
        check(
            f"{name}: a window of {width}",
            [whole, browser.value(OUTSIDE), browser.value(SMALL % (32, 32))],
            [True, [], []],
        )
        ratio = "(({ width, height }) => Math.round(100 * width / height))(shown.svg.getBoundingClientRect())"
        box = "(([, , wide, high]) => Math.round(100 * wide / high))(shown.svg.getAttribute('viewBox').split(' '))"
        check(f"{name}: a whole screen at {width}", browser.value(f"{ratio} - {box}"), 0)
        picture(browser, f"{name}-{width}")
    sized(browser, 390)
    browser.ask("Emulation.setTouchEmulationEnabled", enabled=True)
    browser.ask("Emulation.setEmulatedMedia", features=[{"name": "pointer", "value": "coarse"}])
    browser.open(address)
    if browser.value("matchMedia('(pointer: coarse)').matches"):
        check(f"{name}: sizes under a finger", browser.value(SMALL % (44, 44)), [])
        check(f"{name}: a finger's window", browser.value(OUTSIDE), [])
    browser.ask("Emulation.setTouchEmulationEnabled", enabled=False)
    browser.ask("Emulation.setEmulatedMedia", features=[])
    browser.ask("Emulation.clearDeviceMetricsOverride")


def try_print(browser, name, address):
    """The title and the screen alone are printed, of a VT100 in dark on light."""
    browser.ask("Emulation.setEmulatedMedia", media="print")
    browser.open(address)
    seen = "['screen', 'card', 'poster', 'theme'].map(name => at[name].getClientRects().length > 0)"
    check(f"{name}: what is printed", browser.value(seen), [True, False, False, False])
    fill = browser.value("getComputedStyle(shown.svg).fill")
    check(f"{name}: its ink", fill, "rgb(221, 221, 221)" if browser.value("TODAY") else "rgb(17, 17, 17)")
    browser.ask("Emulation.setEmulatedMedia", media="")


def tree(browser):
    """Role and name of all that a screen reader is told of."""
    nodes = browser.ask("Accessibility.getFullAXTree")["nodes"]
    return [(node["role"]["value"], node.get("name", {}).get("value", "")) for node in nodes if not node.get("ignored")]


def try_names(browser, name, address, text):
    """The accessibility tree, what was fetched, and whether anything went wrong."""
    browser.open(address)
    browser.value(f"at.text.value = '{text}'; listMoments()")
    told = tree(browser)
    buttons = (
        "Play|Chunk back|Chunk on|Copy text|Copy link|Save picture|Fill the window|Play the recording|Dark or light"
    )
    wanted = {("button", each) for each in [*buttons.split("|"), "Next found moment", "Found moment before"]}
    wanted |= {("slider", "Moment"), ("group", "Screen"), ("searchbox", "Text on the screen"), ("heading", name)}
    check(f"{name}: names", wanted - set(told), set())
    check(f"{name}: no control without a name", [role for role, called in told if role in CONTROLS and not called], [])
    menus = {called for role, called in told if role in ("combobox", "popUpButton", "ComboBoxMenuButton")}
    check(f"{name}: menus", menus, {"Speed", "Idle at most"})
    screen = "".join(called for role, called in told if role in ("StaticText", "text"))
    check(
        f"{name}: the screen's text is read",
        browser.value("textOf(shown.rows.find(row => textOf(row)))").strip() in screen,
        True,
    )
    asked = [event["params"] for event in browser.events if event["method"] == "Network.requestWillBeSent"]
    check(f"{name}: what is fetched", [one["request"]["url"] for one in asked if one["type"] != "Document"], [])
    policy = browser.value("document.querySelector('meta[http-equiv]').content")
    check(
        f"{name}: its policy",
        [part in policy for part in ("default-src 'none'", "form-action 'none'", "base-uri 'none'")],
        [True] * 3,
    )
    check(f"{name}: complaints", complaints(browser), [])


def focused(browser):
    return browser.value("document.activeElement.id || document.activeElement.tagName")


def try_keyboard(browser, name, address, text):
    """Every control is reached by Tab, shows that it is, and acts at Space or Enter."""
    browser.open(address)
    reached = []
    while not reached or reached[-1] != "SUMMARY":
        browser.press("Tab")
        reached.append(focused(browser))
        if len(reached) > 30:
            break
    wanted = "theme poster time play back on speed idle copy link save fill text previous next SUMMARY".split()
    check(f"{name}: by Tab", reached, wanted)
    check(f"{name}: the focus is seen", browser.value("getComputedStyle(document.activeElement).outlineStyle"), "solid")
    browser.press("Enter")
    check(f"{name}: the keys unfold", browser.value("document.querySelector('details').open"), True)
    browser.value("at.poster.focus()")
    browser.press("Enter")
    check(f"{name}: Enter on the poster", browser.value("playing !== null"), True)
    browser.value("at.play.focus()")
    browser.press(" ")
    check(f"{name}: space on the button", browser.value("playing"), None)
    browser.value("at.on.focus()")
    before = standing(browser)[1]
    browser.press("Enter")
    check(f"{name}: Enter on a step", standing(browser)[1], before + 1)
    browser.value("at.time.focus()")
    browser.press("End")
    check(f"{name}: the slider's end", standing(browser)[1], browser.value("last"))
    browser.press("f")
    check(f"{name}: fills", browser.value("at.player.classList.contains('filled')"), True)
    browser.press("F")
    check(f"{name}: fills no more", browser.value("at.player.classList.contains('filled')"), False)
    browser.press("/")
    for key in text:
        browser.press(key)
    browser.press("Enter")
    browser.until("at.found.textContent !== ''")
    for _ in range(3):
        browser.press("Tab")
    check(
        f"{name}: from the field to what was found",
        browser.value("document.activeElement.closest('#moments') !== null"),
        True,
    )
    browser.press("Enter")
    check(
        f"{name}: Enter on it",
        [browser.value("finds.lit"), standing(browser)[1]],
        [0, browser.value("finds.list[0].count")],
    )


def try_speech(browser, name, address):
    """A screen reader is told where the player rests, at most once a second, and nothing while it plays."""
    browser.open(address)
    told = "[told_.length, told_.every((time, i) => i === 0 || time - told_[i - 1] > 990)]"
    watch = (
        "told_ = []; new MutationObserver(() => told_.push(performance.now())).observe(at.told, { childList: true }); 0"
    )
    browser.until("at.told.textContent !== ''")
    browser.value(watch)
    browser.value("at.idle.value = 'Infinity'; play(); new Promise(done => setTimeout(done, 1500))")
    check(f"{name}: nothing is told while it plays", browser.value("told_.length"), 0)
    browser.value("pause()")
    browser.until("told_.length > 0")
    seeks = """
    new Promise(done => {
      let n = 0;
      const i = setInterval(() => n < 50 ? seek(n++ * end / 50) : done(clearInterval(i)), 10);
    })
    """
    browser.value(f"told_.length = 0; {seeks}")
    wanted = browser.value("`${clock(place.moment)}, chunk ${place.count} of ${last}`")
    browser.until(f"at.told.textContent === '{wanted}'")
    many, apart = browser.value(told)
    check(f"{name}: told now and then", [many < 50, apart], [True, True])


def try_strip(browser, name, address):
    """Times on the clock, and the time under the pointer."""
    browser.open(address)
    times = {0: "0:00", 59.999: "0:59", 60: "1:00", 754.2: "12:34", 3599.9: "59:59", 3600: "1:00:00", 36061: "10:01:01"}
    check(f"{name}: times", browser.value(f"{list(times)}.map(clock)"), list(times.values()))
    browser.press("End")
    end = browser.value("clock(end)")
    check(f"{name}: the clock", browser.value("at.clock.textContent"), f"{end} / {end}")
    check(
        f"{name}: its tooltip",
        browser.value("at.clock.title === `${end.toFixed(3)} seconds of ${end.toFixed(3)}`"),
        True,
    )
    check(f"{name}: no label yet", browser.value("at.under.hidden"), True)
    move(browser, *centre(browser, "time"))
    browser.until("!at.under.hidden")
    check(f"{name}: the label", browser.value("at.under.textContent === clock(end / 2)"), True)
    middle = "Math.abs((({ left, width }) => left + width / 2)(at.under.getBoundingClientRect()) - %f) < 2"
    check(f"{name}: the label's place", browser.value(middle % centre(browser, "time")[0]), True)
    move(browser, 1, 1)
    browser.until("at.under.hidden")
    click(browser, *centre(browser, "time"))
    check(f"{name}: a click on the strip", abs(standing(browser)[0] / browser.value("end") - 0.5) < 0.02, True)


def try_answers(browser, name, address):
    """Copying and saving answer with a word."""
    browser.open(address)
    browser.value(
        "Object.defineProperty(navigator, 'clipboard', { value: { writeText: text => { window.put = text; } } })"
    )
    browser.value("HTMLAnchorElement.prototype.click = () => {}")
    for key, word in (("c", "text copied"), ("l", "link copied"), ("s", "picture saved")):
        browser.press(key)
        browser.until(f"at.answer.textContent === '{word}'")
        check(f"{name}: {word}", True, True)
    browser.until("at.answer.textContent === ''")


def try_unwritten(browser, name, address):
    """A page in a sandbox, which may write no address and save nothing, plays and seeks all the same."""
    folder, file = os.path.split(address.removeprefix("file://"))

    class Handler(http.server.SimpleHTTPRequestHandler):
        def end_headers(self):
            self.send_header("Content-Security-Policy", "sandbox allow-scripts")
            super().end_headers()

        def log_message(self, *_):
            pass

    with http.server.ThreadingHTTPServer(("127.0.0.1", 0), functools.partial(Handler, directory=folder)) as server:
        thread = threading.Thread(target=server.serve_forever)
        thread.start()
        browser.open(f"http://127.0.0.1:{server.server_port}/{file}#n=1")
        check(f"{name}: sandboxed, the address is read", [standing(browser)[1], browser.value("origin")], [1, "null"])
        for key in (" ", " ", "End", ",", "l", "c"):
            browser.press(key)
        check(f"{name}: sandboxed, keys", standing(browser)[1], browser.value("last") - 1)
        check(
            f"{name}: sandboxed, exceptions",
            [one for one in complaints(browser) if one["method"] == "Runtime.exceptionThrown"],
            [],
        )
        browser.go("about:blank")
        server.shutdown()
        thread.join()


def try_plain(browser, name, address, first):
    """Without a script: what the page is, its title, the first screen's text, and no control."""
    browser.ask("Emulation.setScriptExecutionDisabled", value=True)
    browser.events.clear()
    browser.ask("Page.navigate", url=address + "?plain")
    end = time.monotonic() + 20
    while not any(event["method"] == "Page.loadEventFired" for event in browser.events) and time.monotonic() < end:
        browser.ask("Page.getFrameTree")
    told = tree(browser)
    check(f"{name}: no controls without a script", {role for role, _ in told} & CONTROLS, set())
    check(f"{name}: the title without a script", ("heading", name) in told, True)
    texts = " ".join(called for _, called in told)
    check(f"{name}: what is said without a script", "terminal recording" in texts, True)
    snapshot = browser.ask("DOMSnapshot.captureSnapshot", computedStyles=[])
    seen = [snapshot["strings"][index] for index in snapshot["documents"][0]["layout"]["text"] if index >= 0]
    check(f"{name}: the first screen without a script", [text for text in seen if first in text] != [], True)
    check(f"{name}: its policy holds without a script", complaints(browser), [])
    sized(browser, 800)
    picture(browser, f"{name}-plain")
    browser.ask("Emulation.clearDeviceMetricsOverride")
    browser.ask("Emulation.setScriptExecutionDisabled", value=False)


# Titles that would be markup, end an attribute, or have what HTML or a terminal takes for something else.
TITLES = (
    "</title><script>broken = 1</script>",
    "</h1><img src=x onerror='broken = 1'>",
    '" onload="broken = 1',
    "&lt;b&gt; &amp; &#60; &copy",
    "<!-- ]]>",
    "</noscript><style>*{display:none}</style>",
    "\x1b[31m \x7f \x9b \r\n",
    "é─\U0001f600",
)


def try_titles(browser, recording, folder):
    """The title and the heading are the characters of a title, control characters aside, and nothing of it is run."""
    seen = "[document.title, document.querySelector('h1').textContent, document.scripts.length, typeof broken]"
    for number, title in enumerate(TITLES):
        browser.open(recording.page(folder, f"title{number}", "--title", title))
        wanted = "".join("?" if ord(c) < 32 or 127 <= ord(c) < 160 else c for c in title)
        check(f"title {title!r}", browser.value(seen), [wanted, wanted, 2, "undefined"])


# Of each form a recording, the flags of its page, a text to find, and one of its first screen.
PAGES = (
    ("tour", (), "Seek", "What would you like to do?"),
    ("today/greet", ("--profile", "xterm", "--size", "72x20"), "e", "greetings"),
)


def trial(browser, program, folder):
    for path, words, text, first in PAGES:
        name = os.path.basename(path)
        recording = Recording(program, page_browser.read(os.path.join(page_browser.EXAMPLES, f"{path}.script")))
        address = recording.page(folder, name, *words)
        for tried in (try_colours, try_widths, try_names, try_keyboard):
            tried(browser, name, address, text)
        for tried in (try_print, try_speech, try_strip, try_answers, try_unwritten):
            tried(browser, name, address)
        try_plain(browser, name, address, first)
    try_titles(browser, recording, folder)


if __name__ == "__main__":
    sys.exit(page_browser.run("what a page looks like", trial))
