#!/usr/bin/env python3
"""Writes state texts of random recordings, and plays them behind random bytes.

    tests/state_text.py TYPETOOL [RECORDINGS [SEED]]

Each recording is one of a VT100, of a VT102 or of a terminal of today of some size. What `screen --state` writes of a
moment stands in a second recording behind bytes that have nothing to do with it. There `screen`, `screen --escaped` and
`screen --state` have to tell what they tell of the first one at its moment, and so has `screen` behind some more bytes;
`reports` has to tell no more behind the text than before it, and of what comes then the same as of the first. Plain
terminals (plain_terminal.py) have to keep the same of both, also what is pending. No text is longer than the escaped
print (of a terminal of today: those of both sheets), 16 bytes for each tab stop, and 2,048. The last line is
'N passed, M failed'.
"""
import concurrent.futures
import os
import random
import subprocess
import sys
import tempfile

import plain_reader
import plain_terminal
import plain_today

program = os.path.abspath(sys.argv[1])
count = int(sys.argv[2]) if len(sys.argv) > 2 else 200
seed = int(sys.argv[3]) if len(sys.argv) > 3 else 1
PATIENCE = 20
HEADER = b"Script started on X\n"
# Asks for the place of the cursor, for the status and for what kind of terminal it is.
ASKED = b"\x18\x1b[6n\x1b[5n\x1bZ"
SCREENS = (["screen"], ["screen", "--escaped"], ["screen", "--state"])


def rendition_bytes(rendition):
    """Sequences that put a rendition in force, whatever is."""
    numbers = [number for number in range(1, 10) if number != 6 and rendition.attributes & plain_today.SETS[number]]
    told = ["0", *map(str, numbers)]
    for first, colour in ((38, rendition.ink), (48, rendition.ground)):
        if isinstance(colour, tuple):
            told.append(f"{first};2;" + ";".join(map(str, colour)))
        elif colour is not None:
            told.append(f"{first};5;{colour}")
    return "".join(f"\x1b[{one}m" for one in told).encode()


def other_sheet(state):
    """Bytes that draw the sheet that isn't shown, with what else the escaped print tells."""
    text = b""
    for line, row in enumerate(state.sheets[1 - state.shown].rows, 1):
        text += b"\x1b[%d;1H" % line
        text += b"".join(rendition_bytes(cell.rendition) + cell.text.encode() for cell in row if cell.wide)
    flags = [(5, state.modes.get("DECSCNM")), (25, state.modes["DECTCEM"])]
    text += b"".join(b"\x1b[?%d%c" % (number, b"lh"[bool(on)]) for number, on in flags)
    return text + b"\x1b[%d;%dH" % (state.line, state.column)


class Trial:
    """A recording and a moment of it, in a folder."""

    def __init__(self, rng, folder):
        self.rng, self.folder, self.problems = rng, folder, []
        self.profile = rng.choice(plain_terminal.PROFILES)
        self.size = plain_terminal.size_for(rng, self.profile)

    def write(self, name, recording):
        for kind, text in zip(("script", "timing"), plain_reader.files_of(recording)):
            with open(os.path.join(self.folder, f"{name}.{kind}"), "wb") as file:
                file.write(text)

    def told(self, job, moment, name):
        """What a command tells of a moment of a pair."""
        words = ["--at", plain_reader.written(moment).decode(), *plain_terminal.flags_of(self.profile, self.size)]
        run = [program, *job, *words, f"{name}.script", f"{name}.timing"]
        done = subprocess.run(run, stdin=subprocess.DEVNULL, capture_output=True, cwd=self.folder, timeout=PATIENCE)
        self.expect(f"status of {job} of {name}", done.returncode, 0)
        return done.stdout

    def reports(self, moment, name):
        return self.told(["reports"], moment, name).strip()

    def fed(self, text):
        return plain_terminal.Fed(self.profile, self.size, text)

    def expect(self, name, got, wanted):
        if got != wanted:
            self.problems.append(f"{name}: got {str(got)[:300]}, wanted {str(wanted)[:300]}")

    def is_short(self, state, escaped, terminal):
        """Whether a text keeps within its bound."""
        most = len(escaped) + 16 * len(terminal.state.stops) + 2048
        if self.profile == "xterm":
            self.write("other", (HEADER, [(0, other_sheet(terminal.state))], b""))
            most += len(self.told(["screen", "--escaped"], 0, "other"))
        if len(state) > most:
            self.problems.append(f"the text has {len(state)} bytes, of {most} at most")

    def same_behind(self, old, more):
        """Compares what stands before and behind more bytes with what stood there after the old ones."""
        self.write("old", (HEADER, [(0, old), (10**6, more)], b""))
        self.expect("more is shown", self.told(["screen"], 10**6, "new"), self.told(["screen"], 10**6, "old"))
        self.expect("the text sends", self.reports(1, "new"), self.reports(0, "new"))
        new_sent, old_sent = (
            self.reports(10**6, name)[len(self.reports(at, name)) :] for name, at in (("new", 1), ("old", 0))
        )
        self.expect("more is sent", new_sent, old_sent)

    def everything(self):
        recording = plain_terminal.recording_for(self.rng, self.profile)
        self.write("made", recording)
        moments = [sum(delay for delay, _ in recording[1][:number]) for number in range(len(recording[1]) + 1)]
        moment = max(self.rng.choice(moments) - self.rng.choice([0, 0, 1]), 0)
        old, before = plain_reader.due(recording[1], moment), plain_terminal.bytes_for(self.rng, self.profile)
        wanted = [self.told(job, moment, "made") for job in SCREENS]
        state, more = wanted[2], self.rng.choice(plain_terminal.PROBES) + ASKED
        self.write("new", (HEADER, [(0, before), (1, state), (10**6 - 1, more)], b""))
        self.expect("the same is shown", [self.told(job, 1, "new") for job in SCREENS], wanted)
        self.same_behind(old, more)
        kept = self.fed(old)
        self.expect(
            "the same is kept",
            self.fed(before + state).seen(plain_terminal.PROBES),
            kept.seen(plain_terminal.PROBES),
        )
        self.is_short(state, wanted[1], kept.terminal)
        self.problems = [f"{problem}, of {recording} at {moment}, behind {before}" for problem in self.problems]


def one(number):
    """What went wrong with a recording."""
    with tempfile.TemporaryDirectory(prefix="state-") as folder:
        trial = Trial(random.Random(seed * 1_000_003 + number), folder)
        try:
            trial.everything()
        except subprocess.TimeoutExpired as stuck:
            trial.problems.append(f"stuck: {stuck.cmd}")
    return number, trial.problems


def main():
    failed = 0
    with concurrent.futures.ProcessPoolExecutor(os.cpu_count()) as pool:
        for number, problems in pool.map(one, range(count), chunksize=8):
            failed += bool(problems)
            for problem in problems:
                print(f"FAILED recording {number}: {problem}")
    print(f"state texts: {count - failed} passed, {failed} failed")
    return failed > 0


if __name__ == "__main__":
    sys.exit(main())
