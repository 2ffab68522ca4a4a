#!/usr/bin/env python3
"""A plain reading of what mending a pair of files comes to, apart from the program: the new pair, and what was lost.

    tests/mend_reader.py [--last|--headless] SCRIPT TIMING NEWSCRIPT NEWTIMING

Nothing is shared with the crates: all formats of timing files are read anew here, as docs/FORMATS.md says. It writes
the new pair, tells what was lost, and exits with 1 where a line, a chunk, an output to a pipe or a resize was left out,
a chunk was cut, bytes behind the last chunk have no timing, and where the typescript has no header line.
"""
import re
import sys

LONGEST_DELAY = 10**12
LONGEST_CHUNK = 1_048_576
MOST_CHUNKS = 1_000_000
LONGEST_BODY = 1_073_741_824
OPENING = b"Script started on "
# What script(1) leaves behind the last chunk.
CLOSING = re.compile(rb"(?:\nScript done on [^\n]*\n?)?")
# What sudo's events log: outputs, inputs, outputs to pipes, resizes and signals.
EVENTS = dict(zip("01234567", "IPPIOROS"))
DELAY = re.compile(rb"(-?)([0-9]+)(?:\.([0-9]*))?")


class Bad(Exception):
    """The fault of a line."""


def fields_of(line):
    return [field for field in re.split(rb"[ \t]", line) if field]


def lines_of(timing):
    lines = timing.split(b"\n")
    return lines[:-1] if not lines[-1] else lines


def delay_of(field):
    """Microseconds; digits past the sixth decimal are dropped."""
    found = DELAY.fullmatch(field)
    if not found:
        raise Bad("bad delay")
    sign, whole, decimals = found.groups()
    return 0 if sign else int(whole) * 10**6 + int(((decimals or b"") + b"000000")[:6])


def count_of(fields):
    if len(fields) != 1 or not re.fullmatch(rb"[0-9]+", fields[0]):
        raise Bad("bad count")
    return int(fields[0])


def begins_with_letter(field):
    return re.match(rb"[A-Za-z]", field) is not None


def is_sudos(fields):
    """Whether a line is one of sudo's."""
    return len(fields) > 2 and re.fullmatch(rb"[0-7] [0-9]+\.[0-9]+", b" ".join(fields[:2])) is not None


class Front:
    """The lines before the first that has a fault."""

    def __init__(self, timing):
        self.parts, self.counts = [], dict.fromkeys("HIOPRS", 0)
        self.waited, self.outputs, self.counted, self.logs = 0, 0, 0, {}
        self.left = None
        # One CR at the end of a line isn't read.
        lines = [line.removesuffix(b"\r") for line in lines_of(timing)]
        told = next((fields for fields in map(fields_of, lines) if fields), [b"0"])
        read = self.multi if begins_with_letter(told[0]) else self.sudo if is_sudos(told) else self.classic
        for number, line in enumerate(lines, 1):
            try:
                if fields_of(line):
                    read(fields_of(line))
            except Bad as fault:
                self.left = number, str(fault), len(lines) - number + 1
                break

    def classic(self, fields):
        if begins_with_letter(fields[0]):
            raise Bad("multi-stream format")
        delay = delay_of(fields[0])
        self.take("O", delay, count_of(fields[1:]))

    def multi(self, fields):
        stream = fields[0].decode("latin-1")
        if stream not in ("H", "I", "O", "S"):
            raise Bad("bad stream")
        if len(fields) < 2:
            raise Bad("bad delay")
        delay = delay_of(fields[1])
        self.take(stream, delay, count_of(fields[2:]) if stream in "IO" else 0)
        if stream == "H" and len(fields) > 3:
            self.logs.setdefault(fields[2], fields[3:])

    def sudo(self, fields):
        stream = EVENTS.get(fields[0].decode("latin-1"))
        if not stream:
            raise Bad("bad stream")
        if len(fields) < 2:
            raise Bad("bad delay")
        delay = delay_of(fields[1])
        self.take(stream, delay, count_of(fields[2:]) if stream in "IOP" else 0)

    def take(self, stream, delay, count):
        shared = self.logs.get(b"OUTPUT_LOG", []) == self.logs.get(b"INPUT_LOG", None)
        lying = count if stream == "O" or shared and stream == "I" else 0
        if self.waited + delay > LONGEST_DELAY:
            raise Bad("delay too large")
        if count > LONGEST_CHUNK:
            raise Bad("chunk too long")
        if stream == "O" and self.outputs >= MOST_CHUNKS:
            raise Bad("too many chunks")
        if self.counted + lying > LONGEST_BODY:
            raise Bad("too many bytes")
        self.waited += delay
        self.counted += lying
        self.counts[stream] += 1
        if stream == "O":
            self.parts.append((self.waited, count))
            self.waited, self.outputs = 0, self.outputs + 1
        elif stream == "I" and shared:
            self.parts.append((None, count))


def seen(how, script):
    """The typescript that is read."""
    if how == "--headless":
        return b"Script started\n" + script
    at = script.rfind(b"\n" + OPENING)
    return script[at + 1 :] if how == "--last" and at >= 0 else script


def cut(body, parts):
    """The chunks, the cut one, how many are left out, and what is behind the last byte taken."""
    chunks, at = [], 0
    for place, (delay, count) in enumerate(parts):
        taken = body[at : at + count]
        at += len(taken)
        short = len(taken) < count
        if delay is not None and (taken or not short):
            chunks.append((delay, taken))
        if short:
            outputs = sum(part[0] is not None for part in parts[place + 1 :])
            lost = delay is not None and not taken
            cut_to = (len(chunks) - 1, len(taken), count) if delay is not None and taken else None
            return chunks, cut_to, outputs + lost, body[at:]
    return chunks, None, 0, body[at:]


def told(front, cut_to, left, timing, trailer):
    if front.left:
        yield "timing line %d: %s, %d lines left out" % front.left
    if front.counts["I"] or front.counts["S"]:
        yield f"{front.counts['I']} inputs and {front.counts['S']} signals left out"
    if front.counts["P"] or front.counts["R"]:
        yield f"{front.counts['P']} outputs to pipes and {front.counts['R']} resizes left out"
    if cut_to:
        yield "chunk %d cut to %d of %d bytes" % cut_to
    if left:
        yield f"{left} chunks left out"
    if any(line.endswith(b"\r") for line in lines_of(timing)):
        yield "timing has CR LF"
    if is_untimed(trailer):
        yield f"{len(trailer)} bytes behind the last chunk have no timing"


def is_untimed(trailer):
    """Whether more stands behind the last chunk than script's closing line."""
    return not CLOSING.fullmatch(trailer)


def mend(how, script, timing):
    """The new typescript, the new timing, what is told, and the status; None where there is no header line."""
    script = seen(how, script)
    if b"\n" not in script:
        return None
    start = script.index(b"\n") + 1
    front = Front(timing)
    chunks, cut_to, left, trailer = cut(script[start:], front.parts)
    body = b"".join(taken for _, taken in chunks)
    lines = (f"{delay // 10**6}.{delay % 10**6:06} {len(taken)}\n" for delay, taken in chunks)
    text = "".join(line + "\n" for line in told(front, cut_to, left, timing, trailer))
    damaged = bool(front.left or front.counts["P"] or front.counts["R"] or cut_to or left or is_untimed(trailer))
    return script[:start] + body + trailer, "".join(lines).encode(), text, int(damaged)


def main():
    how = next((word for word in sys.argv[1:] if word in ("--last", "--headless")), "")
    script, timing, new_script, new_timing = [word for word in sys.argv[1:] if word != how]
    with open(script, "rb") as first, open(timing, "rb") as second:
        mended = mend(how, first.read(), second.read())
    if mended is None:
        print("typetool: typescript has no header line", file=sys.stderr)
        return 1
    with open(new_script, "wb") as first, open(new_timing, "wb") as second:
        first.write(mended[0])
        second.write(mended[1])
    sys.stdout.write(mended[2])
    return mended[3]


if __name__ == "__main__":
    sys.exit(main())
