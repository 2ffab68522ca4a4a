#!/usr/bin/env python3
"""Kills jobs that write a pair of files, fills their disk, and reads the pair that is left.

    tests/whole.py TYPETOOL [INSTANTS [SEED]]

Under the new names there has to be what the plain reader (plain_reader.py) refuses, or the whole new recording:

- killed at so many random instants (100), each job over a recording of some MiB;
- killed before each call that opens, writes, syncs, renames or removes a file, and so behind the one before it, by
  strace; and where each of these calls fails: then no `.part` file is left, and the new files are empty;
- where a file may not grow beyond each of some sizes, told by a signal or by an error.

The old files stay as they were. The last line is 'N passed, M failed'.
"""
import collections
import concurrent.futures
import os
import random
import re
import resource
import shutil
import signal
import stat
import struct
import subprocess
import sys
import tempfile
import time

import mend_reader
import plain_cut
import plain_import
import plain_reader as plain
from skip import end, lacks, skip

program = os.path.abspath(sys.argv[1])
instants = int(sys.argv[2]) if len(sys.argv) > 2 else 100
seed = int(sys.argv[3]) if len(sys.argv) > 3 else 1
PATIENCE = 120
EDITS = b"insert 0 0.5 736176656420\ncap 0.25\ndelete 7 9\n"
NEW = ("new.script", "new.timing")
PARTS = tuple(name + ".part" for name in NEW)
# The calls that touch a file, in the names that a C library may choose.
CALLS = "openat,open,creat,write,fchmod,fsync,rename,renameat,renameat2,unlink,unlinkat,ftruncate"

passed = failed = 0


def saved(script, timing):
    return plain.save(plain.read(script, timing), EDITS)


def mended(script, timing):
    return mend_reader.mend("", script, timing)[:2]


def redacted(script, timing):
    return script.replace(b"started on", b"*" * 10), plain.save(plain.read(script, timing), b"")[1]


def imported(file):
    read = plain_import.imported(file)
    script = plain_import.header_of(read).encode() + b"\n" + b"".join(data for _, data in read.chunks)
    return script, b"".join(b"%s %d\n" % (plain.written(delay), len(data)) for delay, data in read.chunks)


def state_at(words, script, timing):
    """The state text of a moment of a pair: what stands in it, tests/state_text.py looks at."""
    with tempfile.TemporaryDirectory(prefix="state-") as folder:
        for name, text in zip(OLD[2], (script, timing)):
            with open(os.path.join(folder, name), "wb") as file:
                file.write(text)
        run = [program, "screen", "--state", *words, *OLD[2]]
        return subprocess.run(run, cwd=folder, capture_output=True, check=True, timeout=PATIENCE).stdout


def cut(script, timing):
    header, chunks, trailer = plain.read(script, timing)
    state = state_at(["--at", "700"], script, timing)
    return plain.files_of((header, plain_cut.cut(chunks, 100 * 10**6, 700 * 10**6, state), trailer))


def excerpt(script, timing):
    header, chunks, trailer = plain.read(script, timing)
    state = state_at(["--profile", "xterm", "--at", "100"], script, timing)
    return plain.files_of((header, plain_cut.excerpt(chunks, 100 * 10**6, None, state), trailer))


# A job: its name and flags, what it reads from standard input, and the pair that it makes of the old files.
JOBS = [
    (["save"], EDITS, saved),
    (["cut", "--from", "100", "--to", "700"], b"", cut),
    (["excerpt", "--profile", "xterm", "--from", "100"], b"", excerpt),
    (["mend"], b"", mended),
    (["import"], b"", imported),
    (["redact", "started on"], b"", redacted),
    (["redact", "--profile", "xterm", "started on"], b"", redacted),
]
# How many chunks a job is killed over; redact looks at the screen after each byte.
CHUNKS = {"save": 40_000, "cut": 40_000, "excerpt": 40_000, "mend": 40_000, "import": 40_000, "redact": 4_000}
# The old files, by how many a job reads.
OLD = {1: ("old.recording",), 2: ("old.script", "old.timing")}


def check(name, good, what=""):
    global passed, failed
    if good:
        passed += 1
    else:
        failed += 1
        print(f"FAILED {name}: {what}", flush=True)


def recording(rng, chunks):
    """A pair of so many chunks, some of them longer than what is held back before it is written."""
    texts = [rng.randbytes(rng.choice([1, 9, 40, 70]) if n % 1000 else 90_000) for n in range(chunks)]
    body = b"".join(texts)
    lines = b"".join(b"%d.%06d %d\n" % (rng.randrange(2), rng.randrange(10**6), len(text)) for text in texts)
    return b"Script started on X\n" + body + b"\nScript done on X\n", lines


def ttyrec(script, timing):
    """The same recording in one file."""
    due, found = 0, b""
    for delay, data in plain.read(script, timing)[1]:
        due += delay
        found += struct.pack("<3I", *divmod(due, 10**6), len(data)) + data
    return found


def old_of(job, pair):
    """The old files of a job, of this recording."""
    return (ttyrec(*pair),) if job[0][0] == "import" else pair


class Place:
    """A folder with old files, in which a job makes a new pair."""

    def __init__(self, job, old):
        self.words, self.requests, made = job
        self.old, self.new = old, made(*old)
        self.names = OLD[len(old)]
        self.folder = tempfile.mkdtemp(prefix="whole-")
        for name, text in zip(self.names, old):
            with open(self.path(name), "wb") as file:
                file.write(text)
        with open(self.path("requests"), "wb") as file:
            file.write(self.requests)

    def path(self, name):
        return os.path.join(self.folder, name)

    def check(self, name, good, what=""):
        check(f"{' '.join(self.words)}, {name}", good, what)

    def command(self):
        name, *flags = self.words
        return [program, name, *flags, *self.names, *NEW]

    def start(self, before=(), **how):
        with open(self.path("requests"), "rb") as requests:
            return subprocess.Popen(
                [*before, *self.command()],
                cwd=self.folder,
                stdin=requests,
                stdout=subprocess.DEVNULL,
                stderr=subprocess.PIPE,
                **how,
            )

    def run(self, before=(), **how):
        """The status, and what was told."""
        process = self.start(before, **how)
        told = process.communicate(timeout=PATIENCE)[1]
        return process.returncode, told

    def clear(self):
        for name in (*NEW, *PARTS):
            if os.path.exists(self.path(name)):
                os.remove(self.path(name))

    def text(self, name):
        """The bytes of a file, or None."""
        if not os.path.exists(self.path(name)):
            return None
        with open(self.path(name), "rb") as file:
            return file.read()

    def left(self):
        """What the pair under the new names is: `none`, `refused`, `whole`, or what else it reads as."""
        script, timing = map(self.text, NEW)
        if script is None or timing is None:
            return "none" if not script and not timing else "a part of a pair"
        if (script, timing) == self.new:
            return "whole"
        read = plain.read(script, timing)
        return "refused" if isinstance(read, str) else f"a recording of {len(read[1])} chunks"

    def parts(self):
        return [name for name in PARTS if os.path.exists(self.path(name))]

    def mode(self, name):
        return stat.S_IMODE(os.stat(self.path(name)).st_mode)

    def is_private(self):
        """Whether each `.part` file is its owner's alone, but where it already has the bits of the old file."""
        allowed = zip(PARTS, (self.names * 2)[:2])
        return all(self.mode(part) in (0o600, self.mode(old)) for part, old in allowed if part in self.parts())

    def judge(self, name, also=True, what=""):
        """Counts a run, after which the pair is refused or whole and the old files as they were."""
        left = self.left()
        old = tuple(self.text(old) for old in self.names)
        self.check(
            name,
            left in ("none", "refused", "whole") and old == self.old and self.is_private() and also,
            f"{left} {what}",
        )
        return left

    def gone(self):
        shutil.rmtree(self.folder)


def whole(job, old):
    """A run that nobody disturbs, with the bits of the old files."""
    place = Place(job, old)
    wanted = [0o640, 0o604][: len(old)]
    for name, mode in zip(place.names, wanted):
        os.chmod(place.path(name), mode)
    status, told = place.run()
    bits = [place.mode(name) for name in NEW]
    good = status == 0 and told == b"" and place.left() == "whole" and not place.parts() and bits == (wanted * 2)[:2]
    place.check("undisturbed", good, f"{status} {told} {place.left()} {bits}")
    place.gone()


def killed(job, old, count, name):
    """Killed at random instants of a run."""
    place, rng, longest = Place(job, old), random.Random(f"{seed} {name}"), 0.0
    counts = collections.Counter()
    for number in range(count):
        place.clear()
        begin = time.monotonic()
        process = place.start()
        if number % 10 == 0:
            # Run to its end, to learn how long that takes here and now.
            process.communicate(timeout=PATIENCE)
            longest = max(time.monotonic() - begin, longest * 0.9)
        else:
            time.sleep(rng.random() * longest)
            process.send_signal(signal.SIGKILL)
            process.communicate(timeout=PATIENCE)
        counts[place.judge(f"killed, {name}, {number}")] += 1
    place.gone()
    return counts


def at_random(pool):
    """Each job killed at random instants, over four folders at once."""
    for job in JOBS:
        old = old_of(job, recording(random.Random(seed), CHUNKS[job[0][0]]))
        shares = [instants // 4 + (n < instants % 4) for n in range(4)]
        name = " ".join(job[0])
        runs = [pool.submit(killed, job, old, share, f"{name} {n}") for n, share in enumerate(shares)]
        counts = sum((run.result() for run in runs), collections.Counter())
        print(f"{name}: " + ", ".join(f"{count} {left}" for left, count in sorted(counts.items())), flush=True)


def traces():
    """Whether strace is there and may trace."""
    if lacks("strace", "a kill and a fault at each call"):
        return False
    if subprocess.run(["strace", "-o", "/dev/null", "true"], capture_output=True).returncode:
        skip("a kill and a fault at each call", "leave to trace")
        return False
    return True


def calls_of(place):
    """The calls of a run that touch files, in their order."""
    place.clear()
    place.run(["strace", "-f", "-o", place.path("trace"), "-e", f"trace={CALLS}"])
    with open(place.path("trace"), errors="replace") as file:
        return re.findall(r"^\d+ +(\w+)\(", file.read(), re.MULTILINE)


def at_each_call(job, old):
    """Killed before each call, and each call failing in its turn."""
    place = Place(job, old)
    calls, seen = calls_of(place), collections.Counter()
    place.check("calls", {"write", "fchmod", "fsync"} <= set(calls), calls)
    for call in calls:
        seen[call] += 1
        at = f"{call} {seen[call]}"
        place.clear()
        place.run(tracer(call, seen[call], "signal=SIGKILL"))
        place.judge(f"killed before {at}")
        place.clear()
        status, told = place.run(tracer(call, seen[call], "error=ENOSPC"))
        faulty(place, f"a fault at {at}", status, told)
    place.gone()


def tracer(call, number, what):
    return ["strace", "-f", "-o", "/dev/null", "-e", f"trace={call}", "-e", f"inject={call}:{what}:when={number}"]


def faulty(place, name, status, told):
    """After a call that failed: a fault is told, no `.part` file is left and the new files that are there are empty; or
    the call doesn't matter."""
    empty = not any(place.text(new) for new in NEW)
    if status == 0:
        place.judge(name, place.left() == "whole", told)
    else:
        place.judge(name, told.startswith(b"typetool: ") and not place.parts() and empty, f"{told} {place.parts()}")


def full(job, old):
    """A file may not grow beyond so many bytes: the program is killed, or the call fails."""
    place = Place(job, old)
    longest = max(map(len, place.new))
    for size in sorted({0, 1, 19, 20, 21, 65535, 65536, 65537, *(longest * n // 8 for n in range(9)), longest - 1}):
        for ignored in (False, True):

            def limit():
                signal.signal(signal.SIGXFSZ, signal.SIG_IGN if ignored else signal.SIG_DFL)
                resource.setrlimit(resource.RLIMIT_FSIZE, (size, size))

            place.clear()
            status, told = place.run(preexec_fn=limit, restore_signals=False)
            if ignored:
                faulty(place, f"at most {size} bytes", status, told)
            else:
                place.judge(f"killed beyond {size} bytes", (status == 0) == (size >= longest), status)
    place.gone()


def main():
    small = recording(random.Random(seed + 1), 1500)
    for job in JOBS:
        whole(job, old_of(job, small))
        full(job, old_of(job, small))
    with concurrent.futures.ThreadPoolExecutor(4) as pool:
        at_random(pool)
        if traces():
            list(pool.map(lambda job: at_each_call(job, old_of(job, small)), JOBS))
    return end(passed, failed)


sys.exit(main())
