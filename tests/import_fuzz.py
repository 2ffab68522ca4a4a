#!/usr/bin/env python3
"""Imports well-formed and damaged recordings of all forms and compares with a plain reading of what that comes to.

    tests/import_fuzz.py TYPETOOL [RECORDINGS [SEED]]

Each recording is an asciicast (version 1, 2 or 3), a ttyrec or messages of tlog, spelled in as many ways as its form
has: members in any order and twice, numbers with exponents, escapes and halves of surrogates, raw bytes, blank lines
and comments, times that go back, changes of the size, events of every kind; or no recording at all. Bytes of many were
flipped, cut, doubled and dropped. `import` has to write just the pair that the plain reader (plain_import.py) comes
to, with the bits of the recording, and to tell just that, with its status; where it has no form that is read, to say
so with a hint, and to leave both files empty. What it wrote `info` has to read without a fault. And what `cast` writes
of a real recording has to come back: each text when it was, and nothing told. The last line is 'N passed, M failed'.
"""
import concurrent.futures
import functools
import json
import os
import random
import stat
import subprocess
import sys
import tempfile

import harm
import plain_import
import plain_reader as plain

program = os.path.abspath(sys.argv[1])
recordings = int(sys.argv[2]) if len(sys.argv) > 2 else 200
seed = int(sys.argv[3]) if len(sys.argv) > 3 else 1
# Far above what any of these files takes: a command that isn't done by then is stuck.
PATIENCE = 20
LETTERS = [b"a", b"b ", b"0", b"\\n", b"\\r\\n", b"\\u001b[1m", b"\\u001B[2J", b"\\/", b'\\"', b"\\\\", b"\\t", b"\x7f"]
LETTERS += ["é".encode(), "日".encode(), "😀".encode(), b"\\u00e9", b"\\ud83d\\ude00", b"\\uD83D\\uDE00", b"\\ufffd"]
LETTERS += [b"\\ud83d", b"\\ude00", b"\\ud83dx", b"\\ud83d\\u0041", b"\xff", b"\xc3", b"\xe6\x97", b"\\u0000", b""]


def text(rng, most=6):
    """A string, as JSON has it."""
    return b'"' + b"".join(rng.choice(LETTERS) for _ in range(rng.randint(0, most))) + b'"'


def number(rng, us):
    """So many microseconds in seconds, spelled in one of many ways, now and then one that is no number's."""
    if rng.random() < 0.01:
        return rng.choice([b"01", b".5", b"1.", b"+1", b"NaN", b"1e", b"0x1"])
    return rng.choice(
        [b"%d.%06d" % divmod(us, 10**6)] * 9
        + [b"%de-6" % us, b"%d.0E-06" % us, b"%d" % (us // 10**6), b"-0.5", b"-0", b"0.0000009", b"1e3"]
        + [b"%d.%09d" % divmod(1000 * us + rng.randrange(1000), 10**9), b"1e-99"]
        + ([b"2e6", b"9e99"] if rng.random() < 0.1 else [])
    )


def whole(rng, usual):
    """A number that may be a size or a second."""
    return rng.choice([b"%d" % usual] * 15 + [b"0", b"9999", b"10000", b"%d.5" % usual, b"-1", b'"80"', b"8e1"])


def value(rng, depth=0):
    """Any value."""
    kind = rng.randrange(7 if depth < 3 else 5)
    if kind == 5:
        return b"[" + b", ".join(value(rng, depth + 1) for _ in range(rng.randint(0, 3))) + b"]"
    if kind == 6:
        return members(rng, [(text(rng), value(rng, depth + 1)) for _ in range(rng.randint(0, 2))])
    return [b"null", b"true", b"false", number(rng, 7), text(rng)][kind]


def space(rng):
    return rng.choice([b"", b"", b" ", b"", b"\t ", b" \r"])


def members(rng, found):
    """An object of these members, in any order, some of them twice."""
    found = [*found, *(found[:1] if rng.random() < 0.05 else [])]
    rng.shuffle(found)
    told = [space(rng) + name + space(rng) + b":" + space(rng) + one for name, one in found]
    return b"{" + b",".join(told) + space(rng) + b"}"


def some(rng, *found):
    """Most of these members, and one that nobody knows."""
    more = [(b'"x"', value(rng))] if rng.random() < 0.3 else []
    return [one for one in found if rng.random() < 0.8] + more


def terminal(rng):
    return rng.choice(
        [b'"xterm-256color"', b'"vt100"', b'"a b"', b'""', b'"' + b"x" * rng.choice([64, 65]) + b'"', b"7"]
    )


def second(rng):
    return rng.choice([b"%d" % rng.randrange(10**10), b"%d.9" % rng.randrange(10**9), b"86399", b"86400", b"1e11"])


def facts(rng, version):
    """The members of a header that tell size, terminal and time."""
    sides = whole(rng, rng.choice([80, 132])), whole(rng, rng.choice([24, 43]))
    date = (b'"timestamp"', second(rng))
    if version == 3:
        inner = some(rng, (b'"cols"', sides[0]), (b'"rows"', sides[1]), (b'"type"', terminal(rng)))
        return some(rng, (b'"term"', members(rng, inner)), date)
    inner = some(rng, (b'"TERM"', terminal(rng)), (b'"SHELL"', text(rng)))
    return some(rng, (b'"width"', sides[0]), (b'"height"', sides[1]), (b'"env"', members(rng, inner)), date)


def event(rng, version, clock):
    """A line: mostly an output."""
    waited = rng.choice([0, 1, 1000, 999_999, 2_500_000])
    clock[0] += waited if rng.random() < 0.9 else -waited
    time = number(rng, max(clock[0], 0) if version == 2 else waited)
    code = rng.choice([b'"o"'] * 8 + [b'"i"', b'"m"', b'"r"', b'"r"', b'"x"', b'""', b'"\\u006f"'])
    size = rng.choice([b'"80x24"', b'"132x43"', b'"0x0"', b'"80x"', b'"9999x1"', b'"080x024"', b"null"])
    told = size if code == b'"r"' else rng.choice([text(rng)] * 9 + [value(rng)])
    line = [time, code, told] + ([b"0"] if rng.random() < 0.02 else [])
    return b"[" + b",".join(space(rng) + one + space(rng) for one in line) + b"]"


def asciicast(rng, version):
    clock = [0]
    spelled = rng.choice([b"%d" % version] * 60 + [b"%d.0" % version, b'"%d"' % version])
    lines = [members(rng, [(b'"version"', spelled), *facts(rng, version)])]
    lines += [event(rng, version, clock) for _ in range(rng.randint(0, 12))]
    for _ in range(rng.choice([0, 0, 1, 2])):
        lines.insert(rng.randint(0, len(lines)), rng.choice([b"", b" \t", b"\r", b"# what"]))
    return ended(rng, lines)


def asciicast_one(rng):
    entries = [
        b"[" + space(rng) + number(rng, rng.choice([0, 1, 250_000])) + b"," + space(rng) + text(rng) + b"]"
        for _ in range(rng.randint(0, 8))
    ]
    between = rng.choice([b",", b", ", b",\n  "])
    stdout = [(b'"stdout"', b"[" + between.join(entries) + space(rng) + b"]")]
    version = [(b'"version"', rng.choice([b"1"] * 40 + [b"1.0", b"4"]))]
    duration = some(rng, (b'"duration"', number(rng, 9)), (b'"command"', b"null"))
    return members(rng, [*facts(rng, 1), *duration, *version, *stdout]) + rng.choice([b"", b"\n", b"\n \n", b"\nx"])


def ttyrec(rng):
    found, clock = b"", rng.choice([0, 5, 86_400, 1_795_801_254, 2**32 - 9])
    for number_of in range(rng.randint(0, 8)):
        clock += rng.choice([0, 0, 1, 1, 2, -1, 2_000_000])
        data = rng.randbytes(rng.choice([0, 1, 1, 9, 40]))
        if number_of == 0 and rng.random() < 0.4:
            data = rng.choice([b"", b"\x1b%G", b"\x1b%@"]) + b"\x1b[8;%s;%st" % (whole(rng, 30), whole(rng, 100)) + data
        length = len(data) + (rng.choice([1, 5, 5, 2**20, 2**31]) if rng.random() < 0.03 else 0)
        micros = rng.choice([0, 1, 999_999, 1_000_000 if number_of else 3])
        found += b"".join(n.to_bytes(4, "little") for n in (max(clock, 0) % 2**32, micros, length)) + data
    return found


def message(rng, identity, pos, rec):
    """A message of tlog: what its timing tells, and the texts that it tells of."""
    timing, shown, typed, raw = b"", b"", b"", {b"in": [], b"out": []}
    for _ in range(rng.randint(0, 6)):
        kind = rng.choice(b"=+>>>>><[]")
        side, skipped, binary = rng.choice([b"in", b"out"]), rng.randint(0, 2), rng.randint(0, 3)
        if kind in b"<>":
            count = rng.randint(0, 5)
            told = b"".join(rng.choice([b"a", "é".encode(), b"\\u001b", b"\\n", b"\xef\xbf\xbd"]) for _ in range(count))
            shown, typed = (shown + told, typed) if kind == ord(">") else (shown, typed + told)
            timing += b"%c%d" % (kind, count)
        elif kind in b"[]":
            side = b"out" if kind == ord("]") else b"in"
            told = b"\xef\xbf\xbd" * skipped
            shown, typed = (shown + told, typed) if side == b"out" else (shown, typed + told)
            raw[side] += [rng.randrange(256) for _ in range(binary)]
            timing += b"%c%d/%d" % (kind, skipped, binary)
        else:
            timing += (
                rng.choice([b"=80x24", b"=100x30", b"=0x0", b"=80x24"])
                if kind == ord("=")
                else b"+%d" % (rng.choice([0, 1, 10, 2500]))
            )
    timing += b">9" if rng.random() < 0.03 else b""
    numbers = {side: b"[" + b",".join(b"%d" % one for one in found) + b"]" for side, found in raw.items()}
    told = [
        (b'"ver"', rng.choice([b'"2.3"', b'"1"', b'"2"', b'"2.3"'])),
        (b'"id"', b"%d" % identity),
        (b'"pos"', b"%d" % pos),
    ]
    told += [(b'"timing"', b'"' + timing + b'"'), (b'"rec"', rec), (b'"out_txt"', b'"' + shown + b'"')]
    told += [(b'"in_txt"', b'"' + typed + b'"'), (b'"out_bin"', numbers[b"out"]), (b'"in_bin"', numbers[b"in"])]
    return members(rng, [*told, *some(rng, (b'"term"', terminal(rng)), (b'"time"', second(rng)))])


def tlog(rng):
    identity, pos, rec, lines = rng.choice([1, 1, 1, 1, 3]), 0, b'"r"', []
    for _ in range(rng.randint(1, 6)):
        lines.append(message(rng, identity, pos, rec))
        identity += 1 if rng.random() < 0.95 else rng.choice([0, 2])
        pos, rec = max(pos + rng.choice([0, 100, 5000, -50]), 0), rec if rng.random() < 0.97 else b'"other"'
    return ended(rng, lines)


def ended(rng, lines):
    """Lines with their ends, the last perhaps without one."""
    found = b"".join(line + rng.choice([b"\n"] * 9 + [b"\r\n"]) for line in lines)
    return found if rng.random() < 0.9 else found[:-1]


def formless(rng):
    begun = [
        b"",
        b"Script started",
        b"Script started on X\nab",
        b"Script starte",
        b"[0, 1]",
        b"{}",
        b"{",
        b"\x1f\x8b\x08x",
    ]
    return rng.choice([*begun, b"BZh9", b"\xfd7zXZ\0", b"\x28\xb5\x2f\xfd", b"\xef\xbb\xbf", rng.randbytes(20)])


def any_recording(rng):
    """A recording, most often with something wrong."""
    makers = [lambda: asciicast(rng, 2), lambda: asciicast(rng, 3), lambda: asciicast_one(rng)]
    makers += [lambda: ttyrec(rng), lambda: tlog(rng)]
    found = rng.choice([*makers * 6, lambda: formless(rng)])()
    found = (b"\xef\xbb\xbf" if rng.random() < 0.05 else b"") + found
    for _ in range(rng.choice([0, 0, 0, 0, 0, 1, 1, 2])):
        found = rng.choice([harm.flipped, harm.cut, harm.doubled, harm.dropped])(rng, found)
    return found


def timing_of(chunks):
    return b"".join(b"%s %d\n" % (plain.written(delay), len(data)) for delay, data in chunks)


def hint(fault, file):
    """What is told of a file that has no form that is read."""
    if fault == "recording is compressed":
        advice = "gunzip, bunzip2, unxz or unzstd it first"
    elif file.startswith(b"Script started"):
        advice = "a typescript needs its timing file: SCRIPT TIMING"
    else:
        advice = "asciicast, ttyrec and tlog are read"
    return f"typetool: {fault}\ntypetool: hint: {advice}\n".encode()


class Importing:
    def __init__(self, folder, number_of):
        self.rng = random.Random(seed * 1_000_003 + number_of)
        self.folder = os.path.join(folder, str(number_of))
        self.problems = []
        os.mkdir(self.folder)

    def path(self, name):
        return os.path.join(self.folder, name)

    def run(self, *words):
        done = subprocess.run(
            [program, *words], stdin=subprocess.DEVNULL, capture_output=True, cwd=self.folder, timeout=PATIENCE
        )
        return done.returncode, done.stdout, done.stderr

    def expect(self, name, got, wanted):
        if got != wanted:
            self.problems.append(f"{name}: got {str(got)[:300]}, wanted {str(wanted)[:300]}")

    def write(self, name, found):
        with open(self.path(name), "wb") as file:
            file.write(found)

    def pair(self):
        found = []
        for name in ("s", "t"):
            with open(self.path(name), "rb") as file:
                found.append((file.read(), stat.S_IMODE(os.fstat(file.fileno()).st_mode)))
        return found

    def everything(self, file):
        self.write("r", file)
        os.chmod(self.path("r"), 0o640)
        got = self.run("import", "r", "s", "t")
        (script, bits), (timing, more_bits) = self.pair()
        try:
            read = plain_import.imported(file)
        except plain_import.Unreadable as fault:
            self.expect("import", got, (1, b"", hint(str(fault), file)))
            self.expect("what is left", (script, timing), (b"", b""))
            return
        lines, status = plain_import.told_of(read)
        self.expect("import", got, (status, "".join(f"{line}\n" for line in lines).encode(), b""))
        body = b"".join(data for _, data in read.chunks)
        self.expect("the new script", script, plain_import.header_of(read).encode() + b"\n" + body)
        self.expect("the new timing", timing, timing_of(read.chunks))
        self.expect("their bits", (bits, more_bits), (0o640, 0o640))
        self.expect("what info says of it", self.run("info", "s", "t")[::2], (0, b""))

    def comes_back(self, header, chunks, trailer):
        """What `cast` writes of a recording is imported with nothing lost."""
        self.write("old.s", header + b"".join(data for _, data in chunks) + trailer)
        self.write("old.t", timing_of(chunks))
        self.write("r", self.run("cast", "--profile", "xterm", "old.s", "old.t")[1])
        self.expect("import of a cast", self.run("import", "r", "s", "t"), (0, b"", b""))
        with open(self.path("r"), encoding="utf-8") as file:
            events = [json.loads(line) for line in list(file)[1:]]
        due, wanted = 0, []
        for time, _, told in events:
            moment = round(time * 10**6)
            wanted.append((moment - due, told.encode()))
            due = moment
        got = plain.read(*(found for found, _ in self.pair()))
        self.expect("the cast's texts", [tuple(chunk) for chunk in got[1]], [one for one in wanted if one[1]])


def one(folder, real, number_of):
    importing = Importing(folder, number_of)
    try:
        if number_of % 10 == 0:
            importing.comes_back(*harm.piece(importing.rng, real))
        else:
            importing.everything(any_recording(importing.rng))
    except subprocess.TimeoutExpired as stuck:
        importing.problems.append(f"stuck: {stuck.cmd}")
    if not importing.problems:
        for name in os.listdir(importing.folder):
            os.remove(importing.path(name))
        os.rmdir(importing.folder)
    return number_of, importing.problems


def main():
    real, failed = harm.recordings(), 0
    folder = tempfile.mkdtemp(prefix="importing-")
    with concurrent.futures.ProcessPoolExecutor(os.cpu_count()) as pool:
        for number_of, problems in pool.map(functools.partial(one, folder, real), range(recordings), chunksize=8):
            failed += bool(problems)
            for problem in problems:
                print(f"FAILED recording {number_of} in {folder}: {problem}")
    if not failed:
        subprocess.run(["rm", "-rf", folder], check=True)
    print(f"imported recordings: {recordings - failed} passed, {failed} failed")
    return failed > 0


if __name__ == "__main__":
    sys.exit(main())
