"""A headless Chromium, driven by its debugging protocol over a pipe."""
import base64
import itertools
import json
import os
import select
import shutil
import subprocess
import time

NAMES = ["chromium", "chromium-browser", "google-chrome"]
FLAGS = ["--headless", "--no-sandbox", "--disable-gpu", "--no-first-run", "--remote-debugging-pipe"]
# Far above what any answer takes.
PATIENCE = 60


def path():
    """Where a Chromium is, or None."""
    return next((found for found in map(shutil.which, NAMES) if found), None)


class Chromium:
    """One page of a browser of its own."""

    def __init__(self, folder):
        ours_in, theirs_out = os.pipe()
        theirs_in, ours_out = os.pipe()

        def give_pipe():
            # Kept apart first, so that neither end overwrites the other.
            ends = os.dup(theirs_in), os.dup(theirs_out)
            os.dup2(ends[0], 3)
            os.dup2(ends[1], 4)

        words = [path(), *FLAGS, f"--user-data-dir={folder}/browser", "--window-size=1000,900", "about:blank"]
        self.process = subprocess.Popen(
            words, preexec_fn=give_pipe, close_fds=False, stdout=subprocess.DEVNULL, stderr=subprocess.DEVNULL
        )
        os.close(theirs_in)
        os.close(theirs_out)
        self.reader, self.writer = ours_in, ours_out
        self.rest, self.events, self.numbers, self.session = b"", [], itertools.count(1), None
        target = next(info for info in self.ask("Target.getTargets")["targetInfos"] if info["type"] == "page")
        self.session = self.ask("Target.attachToTarget", targetId=target["targetId"], flatten=True)["sessionId"]
        for domain in ("Page", "Network", "Runtime", "Log", "Accessibility"):
            self.ask(f"{domain}.enable")

    def message(self, end):
        while b"\0" not in self.rest:
            if not select.select([self.reader], [], [], max(0, end - time.monotonic()))[0]:
                raise TimeoutError("the browser doesn't answer")
            self.rest += os.read(self.reader, 1 << 20)
        text, self.rest = self.rest.split(b"\0", 1)
        return json.loads(text)

    def ask(self, method, **params):
        """The answer to one call; events that come before it are kept."""
        number = next(self.numbers)
        call = {"id": number, "method": method, "params": params}
        if self.session:
            call["sessionId"] = self.session
        text = json.dumps(call).encode() + b"\0"
        while text:
            text = text[os.write(self.writer, text) :]
        end = time.monotonic() + PATIENCE
        while True:
            message = self.message(end)
            if message.get("id") == number:
                if "error" in message:
                    raise RuntimeError(f"{method}: {message['error']}")
                return message["result"]
            self.events.append(message)

    def open(self, address):
        """Goes to an address, and waits until it has loaded."""
        self.go("about:blank")
        self.events.clear()
        self.go(address)

    def go(self, address):
        self.ask("Page.navigate", url=address)
        there = f"document.URL.split('#')[0] === {json.dumps(address.split('#')[0])}"
        self.until(f"{there} && document.readyState === 'complete'")

    def value(self, expression):
        """What an expression comes to on the page; promises are waited for."""
        told = self.ask(
            "Runtime.evaluate", expression=expression, returnByValue=True, awaitPromise=True, userGesture=True
        )
        if "exceptionDetails" in told:
            raise RuntimeError(f"{expression[:80]}: {told['exceptionDetails']}")
        return told["result"].get("value")

    def until(self, expression):
        """Waits until an expression holds on the page."""
        end = time.monotonic() + PATIENCE
        while not self.value(expression):
            if time.monotonic() > end:
                raise TimeoutError(expression)

    def press(self, key, text=""):
        """A key that is pressed and let go."""
        codes = {"ArrowLeft": 37, "ArrowRight": 39, "Home": 36, "End": 35, "Enter": 13, "Tab": 9, " ": 32}
        text = text or (key if len(key) == 1 else {"Enter": "\r"}.get(key, ""))
        code = codes.get(key, ord(key.upper()) if len(key) == 1 and key.isalnum() else 0)
        for kind in ("keyDown", "keyUp"):
            more = {"text": text} if text and kind == "keyDown" else {}
            self.ask("Input.dispatchKeyEvent", type=kind, key=key, windowsVirtualKeyCode=code, **more)

    def picture(self, path):
        """A screenshot as a PNG file."""
        with open(path, "wb") as file:
            file.write(base64.b64decode(self.ask("Page.captureScreenshot", format="png")["data"]))

    def close(self):
        self.ask("Browser.close")
        self.process.wait(PATIENCE)
        os.close(self.reader)
        os.close(self.writer)
