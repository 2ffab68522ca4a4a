"""Times pages in Chromium for page.sh."""
import glob
import json
import math
import os
import subprocess
import sys
import time

from shared import TOP, figure, write_recording
from today import coloured

sys.path.insert(0, os.path.join(TOP, "tests"))
import chromium  # noqa: E402

CHUNKS, BYTES, COLUMNS, LINES = 20_000, 200, 132, 43
OPENINGS, FRAMES, WARM, PEER_SEEKS = 3, 200, 20, 5
XTERM_JS = "/usr/share/nodejs/xterm/lib"
# Draws so many frames, each behind the one before it, and tells the milliseconds of the middle one. What is posted in a
# frame is heard once the page is laid out and painted.
DRAWN = """
(async () => {
  const took = [];
  let n = %d;
  const frame = () => new Promise(done => requestAnimationFrame(() => {
    const start = performance.now();
    stand(entries[n][0], n);
    const { port1, port2 } = new MessageChannel();
    port1.onmessage = () => { took.push(performance.now() - start); done(); };
    port2.postMessage(0);
  }));
  for (let i = 0; i < %d; i++) {
    n = (n + %d) %% entries.length;
    await frame();
  }
  return took.sort((one, other) => one - other)[took.length >> 1];
})()
"""
PEER = """<!DOCTYPE html><meta charset="utf-8"><div id="screen"></div><script>
const modules = {%s}, loaded = {};
function load(name) {
  if (!loaded[name]) {
    loaded[name] = { exports: {} };
    const near = wanted => load(new URL(wanted, `file:///${name}`).pathname.slice(1));
    modules[name](near, loaded[name], loaded[name].exports);
  }
  return loaded[name].exports;
}
const text = %s;
const terminal = new (load('public/Terminal').Terminal)({ cols: %d, rows: %d, scrollback: 0 });
terminal.open(document.getElementById('screen'));
const seek = length => new Promise(done => {
  const start = performance.now();
  terminal.reset();
  terminal.on('title', function ended(title) {
    if (title !== 'there') return;
    terminal.off('title', ended);
    done(performance.now() - start);
  });
  terminal.write(text.slice(0, length) + '\\x1b]0;there\\x07');
});
</script>"""


def thread_seconds(browser):
    """The processor time of the page's thread."""
    told = browser.ask("Performance.getMetrics")["metrics"]
    return next(one["value"] for one in told if one["name"] == "ThreadTime")


def opened(browser, folder, page):
    """The least seconds that a page takes until it is painted, and the processor time of that opening."""
    blank = os.path.join(folder, "blank.html")
    with open(blank, "w", encoding="ascii") as file:
        file.write("<!DOCTYPE html>")
    times = []
    for _ in range(OPENINGS):
        browser.open(f"file://{blank}")
        start, before = time.monotonic(), thread_seconds(browser)
        browser.go(f"file://{page}")
        browser.value("new Promise(done => requestAnimationFrame(() => setTimeout(done)))")
        times.append((time.monotonic() - start, thread_seconds(browser) - before))
    return min(times)


def drawn(browser, start, step):
    """Milliseconds of a frame, and those of the processor, of counts that are so many apart."""
    browser.value(DRAWN % (start, WARM, step))
    before = thread_seconds(browser)
    took = browser.value(DRAWN % (start, FRAMES, step))
    return took, 1000 * (thread_seconds(browser) - before) / FRAMES


def timed(browser, folder, name, page, goals):
    """The figures of a page; the middle of it is where the next chunks are drawn."""
    wall, processor = opened(browser, folder, page)
    figure(f"{name}: open, s", wall, goals[0], f"({processor:.2f} s of processor)")
    browser.value("begin()")
    last = browser.value("last")
    # So far apart that all counts come before one comes again.
    far = next(step for step in range(int(last * 0.618), 2 * last + 2) if math.gcd(step, last + 1) == 1)
    for told, start, step in (("next chunk", last // 2, 1), ("anywhere", 0, far)):
        wall, processor = drawn(browser, start, step)
        figure(f"{name}: {told}, ms", wall, goals[1], f"({processor:.1f} ms of processor)")
    return wall


def peer_modules():
    """What xterm.js is made of, each part a function of what it requires."""
    for path in glob.glob(f"{XTERM_JS}/**/*.js", recursive=True):
        if not path.endswith(".test.js"):
            name = os.path.relpath(path, XTERM_JS).removesuffix(".js")
            with open(path, encoding="utf-8") as file:
                yield f"{json.dumps(name)}: (require, module, exports) => {{\n{file.read()}\n}}"


def by_peer(browser, folder, text, ours):
    """How long xterm.js takes to show moments of the same bytes, over what a page takes."""
    modules = ",\n".join(peer_modules())
    if not modules:
        print("xterm.js isn't here (Debian's node-xterm)")
        return
    path = os.path.join(folder, "peer.html")
    with open(path, "w", encoding="utf-8") as file:
        told = json.dumps(text.decode(errors="replace")).replace("<", "\\u003c")
        file.write(PEER % (modules, told, COLUMNS, LINES))
    browser.open(f"file://{path}")
    took = sorted(browser.value(f"seek(text.length * {n + 1} / {PEER_SEEKS} | 0)") for n in range(PEER_SEEKS))
    theirs = took[PEER_SEEKS // 2]
    figure("large: anywhere over xterm.js", ours / theirs, 0.25, f"({ours:.1f} over {theirs:.0f} ms)")


def written(typetool, folder, name, *words):
    path = os.path.join(folder, f"{name}.html")
    with open(path, "wb") as file:
        subprocess.run([typetool, "page", *words], check=True, stdout=file)
    return path


def main(typetool, folder):
    scripts = glob.glob(f"{TOP}/examples/*.script") + glob.glob(f"{TOP}/tests/recordings/*.script")
    script = max(scripts, key=os.path.getsize)
    shipped = written(typetool, folder, "shipped", script, script.removesuffix("script") + "timing")
    text = coloured(CHUNKS * BYTES)
    pair = write_recording(folder, "large", text, BYTES, 50_000)
    words = ["--profile", "xterm", "--size", f"{COLUMNS}x{LINES}", *pair]
    large = written(typetool, folder, "large", *words)
    print(f"{os.path.basename(script)}: {os.path.getsize(shipped):,} bytes of page; {os.path.getsize(large):,} of a")
    print(f"{os.path.getsize(pair[0]):,} bytes of script in {CHUNKS:,} chunks")
    browser = chromium.Chromium(folder)
    try:
        # What a screen reader is told is made for the tests alone.
        browser.ask("Accessibility.disable")
        browser.ask("Performance.enable")
        browser.ask("Emulation.setDeviceMetricsOverride", width=1280, height=900, deviceScaleFactor=1, mobile=False)
        timed(browser, folder, "shipped", shipped, (2, 16))
        ours = timed(browser, folder, "large", large, (3, 25))
        by_peer(browser, folder, text, ours)
    finally:
        browser.close()


if __name__ == "__main__":
    main(*sys.argv[1:])
