#!/usr/bin/env python3
"""A plain reading of what a recording in another form is imported as, apart from the program.

    tests/plain_import.py [RECORDING NEWSCRIPT NEWTIMING]

Forms: asciicast 1, 2 and 3, ttyrec, tlog's messages. Nothing is shared with the crates. It writes the pair, tells what
was lost, and exits with 1 where something was left out or cut, and where the recording has no known form. Without
paths it looks at rows whose pair and losses were worked out by hand; the last line is 'N passed, M failed'.
"""
import datetime
import re
import struct
import sys

LAST_MOMENT = 10**18
LONGEST_DELAY = 10**12
LONGEST_CHUNK = 1_048_576
MOST_CHUNKS = 1_000_000
LONGEST_BODY = 1_073_741_824
FIRST_DATE, LAST_DATE = 86_400, 253_402_300_799
DEEPEST = 64
COMPRESSED = (b"\x1f\x8b\x08", b"BZh", b"\xfd7zXZ\0", b"\x28\xb5\x2f\xfd")
SPACE = re.compile(rb"[ \t\r\n]*")
NUMBER = re.compile(rb"(-?)(0|[1-9][0-9]*)(?:\.([0-9]+))?(?:[eE]([+-]?)([0-9]+))?")
STRING = re.compile(rb'"((?:[^\0-\x1f"\\]|\\(?:["\\/bfnrt]|u[0-9a-fA-F]{4}))*)"')
ESCAPE = re.compile(rb"\\u(d[89ab]..)\\u(d[c-f]..)|\\u(....)|\\(.)", re.I)
PLAIN_ESCAPES = dict(zip(b'"\\/bfnrt', b'"\\/\b\f\n\r\t'))
RESIZE = re.compile(rb"(?:\x1b%[G@])?\x1b\[8;([0-9]+);([0-9]+)t")
CHARACTER = re.compile(rb"[\0-\xff][\x80-\xbf]*")
TIMING = re.compile(rb"([+<>])([0-9]+)|([][])([0-9]+)/([0-9]+)|=([0-9]+)x([0-9]+)")


class Unreadable(Exception):
    """The recording's form isn't known, or nothing of it can be read."""


class Fault(Exception):
    """What ends reading."""


class NoJson(Exception):
    """No JSON value stands here."""


def value_of(digits):
    """The value of digits, which above 10^18 is just far above."""
    digits = digits.lstrip(b"0")
    return int(digits or b"0") if len(digits) < 20 else 10**20


class Number(bytes):
    """A number, by its text."""

    def scaled(self, decimals):
        """The number times a power of ten, cut to a whole one; far beyond all limits it is just far."""
        sign, whole, part, minus, exponent = NUMBER.fullmatch(self).groups()
        digits = (whole + (part or b"")).lstrip(b"0")
        power = value_of(exponent or b"0") * (-1 if minus == b"-" else 1) - len(part or b"") + decimals
        places = min(len(digits) + power, 30) if digits else 0
        found = int(digits[:places].ljust(places, b"0")) if places > 0 else 0
        return -found if sign else found

    def micros(self):
        return min(max(self.scaled(6), 0), LAST_MOMENT)


def unescaped(found):
    high, low, alone, letter = found.groups()
    if high:
        point = 0x10000 + (int(high, 16) - 0xD800) * 0x400 + int(low, 16) - 0xDC00
    elif alone:
        point = int(alone, 16)
    else:
        return bytes([PLAIN_ESCAPES[letter[0]]])
    return chr(0xFFFD if 0xD800 <= point <= 0xDFFF else point).encode()


class Json:
    """JSON over bytes, read from a place on."""

    def __init__(self, text):
        self.text, self.at = text, 0

    def skip(self):
        self.at = SPACE.match(self.text, self.at).end()

    def next(self):
        """The byte that stands here, behind space."""
        self.skip()
        return self.text[self.at : self.at + 1]

    def takes(self, byte):
        found = self.next() == byte
        self.at += found
        return found

    def wants(self, byte):
        if not self.takes(byte):
            raise NoJson

    def string(self):
        self.skip()
        found = STRING.match(self.text, self.at)
        if not found:
            raise NoJson
        self.at = found.end()
        return ESCAPE.sub(unescaped, found[1])

    def value(self, depth=1):
        first = self.next()
        if first == b'"':
            return self.string()
        if first in (b"{", b"["):
            if depth > DEEPEST:
                raise NoJson
            return self.members(depth) if first == b"{" else self.items(depth)
        for word, value in ((b"true", True), (b"false", False), (b"null", None)):
            if self.text.startswith(word, self.at):
                self.at += len(word)
                return value
        found = NUMBER.match(self.text, self.at)
        if not found:
            raise NoJson
        self.at = found.end()
        return Number(found[0])

    def items(self, depth):
        found = []
        self.wants(b"[")
        while not (not found and self.takes(b"]")):
            found.append(self.value(depth + 1))
            if self.takes(b"]"):
                break
            self.wants(b",")
        return found

    def members(self, depth):
        found = {}
        self.wants(b"{")
        while not (not found and self.takes(b"}")):
            name = self.string()
            self.wants(b":")
            found[name] = self.value(depth + 1)
            if self.takes(b"}"):
                break
            self.wants(b",")
        return found


def json_of(text):
    """The value that a whole text is, or None, which no reader here takes for anything."""
    reader = Json(text)
    try:
        value = reader.value()
    except NoJson:
        return None
    return value if not reader.next() else None


def is_text(value):
    return isinstance(value, bytes) and not isinstance(value, Number)


def size_of(columns, lines):
    """A size, where both are numbers of digits from 1 to 9,999."""
    size = tuple(value_of(side) if side.isdigit() else 0 for side in (columns, lines))
    return size if 1 <= min(size) and max(size) <= 9999 else None


class Import:
    """What was read so far: the outputs, what the header tells, what was lost, and the first reason to refuse it."""

    def __init__(self):
        self.chunks, self.bytes, self.moment, self.due = [], 0, 0, 0
        self.size, self.told_size, self.term, self.date = None, None, None, None
        self.first, self.left, self.cut, self.slow, self.refusal = None, None, None, 0, None
        self.counts = {"inputs": 0, "markers": 0, "resizes": 0, "others": 0}

    def refuse(self, text):
        self.refusal = self.refusal or text

    def leave(self, where, fault, left):
        self.left = f"recording {where}: {fault}, {left} left out"
        self.refuse(f"recording {where}: {fault}")

    def tell_size(self, size):
        self.size = self.told_size = size

    def tell_term(self, value):
        if is_text(value) and re.fullmatch(rb"[A-Za-z0-9._+-]{1,64}", value):
            self.term = value.decode()

    def tell_date(self, value):
        if isinstance(value, Number) and FIRST_DATE <= value.scaled(0) <= LAST_DATE:
            self.date = value.scaled(0)

    def tell_members(self, value, columns, lines):
        sides = [member(value, columns), member(value, lines)]
        self.tell_size(size_of(*sides) if all(isinstance(side, Number) for side in sides) else None)

    def resize(self, size):
        """A change of size: none where it is badly formed."""
        if size and not self.chunks:
            self.tell_size(size)
        elif not size or size != self.size:
            self.counts["resizes"] += 1
            self.size = size or self.size

    def pass_time(self, micros):
        self.moment = min(self.moment + micros, LAST_MOMENT)

    def reach(self, micros):
        self.moment = max(self.moment, min(micros, LAST_MOMENT))

    def output(self, text, where):
        """An output at this moment."""
        if len(text) > LONGEST_CHUNK:
            raise Fault("chunk too long")
        if not text:
            return
        if len(self.chunks) >= MOST_CHUNKS:
            raise Fault("too many chunks")
        if self.bytes + len(text) > LONGEST_BODY:
            raise Fault("too many bytes")
        delay = self.moment - self.due
        if delay > LONGEST_DELAY:
            self.slow += 1
            self.refuse(f"recording {where}: delay too large")
        self.chunks.append((min(delay, LONGEST_DELAY), text))
        self.bytes, self.due = self.bytes + len(text), self.moment

    def lines(self, text, read, skips=lambda line: False):
        """Reads each line, counted from 1, up to the first fault."""
        lines = text.split(b"\n")
        lines = lines if lines[-1] else lines[:-1]
        for number, line in enumerate(lines, 1):
            try:
                if line.strip(b" \t\r") and not skips(line):
                    read(line, f"line {number}")
            except Fault as fault:
                return self.leave(f"line {number}", fault, f"{len(lines) - number + 1} lines")


class Asciicast(Import):
    """Version 2, whose times are moments, and version 3, whose times are intervals."""

    def __init__(self, text, version):
        super().__init__()
        self.version, self.header = version, None
        self.lines(text, self.line, lambda line: version == 3 and line.startswith(b"#"))

    def line(self, line, where):
        if self.header is None:
            self.header = json_of(line)
            self.facts()
        else:
            self.event(json_of(line), where)

    def facts(self):
        term = member(self.header, b"term")
        if self.version == 2:
            self.tell_members(self.header, b"width", b"height")
            self.tell_term(member(member(self.header, b"env"), b"TERM"))
        else:
            self.tell_members(term, b"cols", b"rows")
            self.tell_term(member(term, b"type"))
        self.tell_date(member(self.header, b"timestamp"))

    def event(self, event, where):
        if not (isinstance(event, list) and len(event) == 3 and isinstance(event[0], Number) and is_text(event[1])):
            raise Fault("bad event")
        time, code, value = event
        if code == b"o" and not is_text(value):
            raise Fault("bad event")
        if self.version == 3:
            self.pass_time(time.micros())
        if code == b"o":
            self.reach(time.micros() if self.version == 2 else 0)
            self.output(value, where)
        elif code == b"r":
            sides = re.fullmatch(rb"([0-9]+)x([0-9]+)", value) if is_text(value) else None
            self.resize(size_of(*sides.groups()) if sides else None)
        else:
            self.counts[{b"i": "inputs", b"m": "markers"}.get(code, "others")] += 1


class AsciicastOne(Import):
    """Version 1: one object, whose outputs stand in an array, behind their delays."""

    def __init__(self, text):
        super().__init__()
        self.text, self.json, self.count, self.begin, self.found = text, Json(text), 0, 0, {}
        try:
            self.object()
        except (Fault, NoJson) as fault:
            left = len(text) - self.begin
            self.leave(f"event {self.count}", str(fault) or "bad event", f"{left} bytes")
        version = self.found.get(b"version")
        if not (isinstance(version, Number) and version == b"1"):
            raise Unreadable("recording of no known form")
        self.tell_members(self.found, b"width", b"height")
        self.tell_term(member(self.found.get(b"env"), b"TERM"))
        self.tell_date(self.found.get(b"timestamp"))

    def here(self):
        """What is read from here on is left out where it can't stand here."""
        self.json.skip()
        self.begin = self.json.at

    def list(self, one, end):
        """Members or entries with commas between, behind the bracket, up to the other one."""
        self.here()
        if self.json.takes(end):
            return
        while True:
            self.here()
            one()
            self.here()
            if self.json.takes(end):
                return
            self.json.wants(b",")

    def object(self):
        self.json.wants(b"{")
        self.list(self.member, b"}")
        self.here()
        if self.json.next():
            raise NoJson

    def member(self):
        name = self.json.string()
        self.json.wants(b":")
        if name == b"stdout":
            self.json.wants(b"[")
            self.list(self.entry, b"]")
        else:
            self.found[name] = self.json.value(2)

    def entry(self):
        entry = self.json.value(3)
        if not (isinstance(entry, list) and len(entry) == 2 and isinstance(entry[0], Number) and is_text(entry[1])):
            raise NoJson
        self.pass_time(entry[0].micros())
        self.output(entry[1], f"event {self.count}")
        self.count += 1


class Ttyrec(Import):
    """Records of a clock, a length and so many bytes."""

    def __init__(self, text):
        super().__init__()
        at, count, before = 0, 0, None
        while at < len(text):
            try:
                at, before = self.record(text, at, f"event {count}", before)
            except Fault as fault:
                return self.leave(f"event {count}", fault, f"{len(text) - at} bytes")
            count += 1

    def record(self, text, at, where, before):
        """Tells where the next one stands, and its clock; none was before the first."""
        if len(text) - at < 12:
            raise Fault("bad event")
        seconds, micros, length = struct.unpack_from("<3I", text, at)
        clock = seconds * 10**6 + micros
        if before is None:
            self.tell_date(Number(b"%d" % seconds))
        if length > LONGEST_CHUNK:
            raise Fault("chunk too long")
        data = text[at + 12 : at + 12 + length]
        if length and not data:
            raise Fault("bad event")
        self.pass_time(max(clock - before, 0) if before is not None else 0)
        self.output(data, where)
        if before is None:
            found = RESIZE.match(data)
            self.tell_size(size_of(found[2], found[1]) if found else None)
        if len(data) < length:
            self.cut = f"chunk {len(self.chunks) - 1} cut to {len(data)} of {length} bytes"
            self.refuse(f"recording ends inside chunk {len(self.chunks) - 1}")
        return at + 12 + len(data), clock


class Tlog(Import):
    """A message in each line, whose timing says which characters and bytes of it came when."""

    def __init__(self, text):
        super().__init__()
        self.id, self.rec = None, None
        self.lines(text, self.message)

    def message(self, line, where):
        found = json_of(line)
        identity, pos = (digits_of(member(found, name)) for name in (b"id", b"pos"))
        rec = member(found, b"rec")
        rec = rec if is_text(rec) else None
        items = self.items(found) if None not in (identity, pos) else None
        if items is None:
            raise Fault("bad event")
        if self.id is None:
            self.begin(found, identity, rec, where)
        elif (identity, rec) != (self.id + 1, self.rec):
            raise Fault("out of order")
        self.id = identity
        for kind, value in items:
            if kind == "time":
                pos += value
            elif kind == "output":
                self.reach(pos * 1000)
                self.output(value, where)
            elif kind == "resize":
                self.resize(value)
            else:
                self.counts["inputs"] += 1

    def begin(self, found, identity, rec, where):
        self.rec = rec
        self.tell_term(member(found, b"term"))
        self.tell_date(member(found, b"time"))
        if identity > 1:
            self.first = f"first message is number {identity}"
            self.refuse(f"recording {where}: out of order")

    def items(self, found):
        """What the timing tells, or None where it can't be, or where there is less than it tells."""
        version, timing = member(found, b"ver"), member(found, b"timing")
        stores = [streams_of(found, side) for side in (b"in", b"out")]
        if not (is_text(version) and re.fullmatch(rb"[12](\.[0-9]+)?", version) and is_text(timing)) or None in stores:
            return None
        at, items = 0, []
        while at < len(timing):
            item = TIMING.match(timing, at)
            told = item and one_item(item, *stores)
            if not told:
                return None
            items.append(told)
            at = item.end()
        return items


def member(value, name):
    return value.get(name) if isinstance(value, dict) else None


def digits_of(value):
    return int(value) if isinstance(value, Number) and re.fullmatch(rb"[0-9]{1,18}", value) else None


def streams_of(found, side):
    """The characters of a text and the bytes of an array, where both are what they have to be."""
    text, numbers = found.get(side + b"_txt", b""), found.get(side + b"_bin", [])
    if not (is_text(text) and isinstance(numbers, list)):
        return None
    if not all(isinstance(one, Number) and re.fullmatch(rb"[0-9]{1,3}", one) and int(one) < 256 for one in numbers):
        return None
    return CHARACTER.findall(text), [bytes([int(one)]) for one in numbers]


def taken(items, count):
    """The first items, which are taken out."""
    count = value_of(count)
    if count > len(items):
        return None
    front = b"".join(items[:count])
    del items[:count]
    return front


def one_item(item, typed, shown):
    """One item of a timing as its kind and value, or None where there is less than it tells."""
    sign, count, bracket, skipped, binary, columns, lines = item.groups()
    if sign == b"+":
        return "time", value_of(count)
    if columns:
        return "resize", size_of(columns, lines)
    characters, numbers = shown if (sign or bracket) in (b">", b"]") else typed
    text = taken(characters, count or skipped)
    if bracket and text is not None:
        text = taken(numbers, binary)
    if text is None:
        return None
    return ("output" if (sign or bracket) in (b">", b"]") else "input"), text


def imported(text):
    """The recording, by the form that the file has."""
    if text.startswith(COMPRESSED):
        raise Unreadable("recording is compressed")
    text = text.removeprefix(b"\xef\xbb\xbf")
    if len(text) >= 12 and struct.unpack_from("<I", text, 4)[0] < 10**6:
        return Ttyrec(text)
    if not text.lstrip(b" \t\r\n").startswith(b"{"):
        raise Unreadable("recording of no known form")
    head = json_of(next(line for line in text.split(b"\n") if line.strip(b" \t\r")))
    version = member(head, b"version")
    if isinstance(version, Number) and version in (b"2", b"3"):
        return Asciicast(text, int(version))
    if is_text(member(head, b"ver")) and is_text(member(head, b"timing")):
        return Tlog(text)
    return AsciicastOne(text)


def header_of(read):
    """The typescript's first line."""
    day = datetime.datetime(1970, 1, 1)
    date = "unknown" if read.date is None else f"{day + datetime.timedelta(seconds=read.date)}+00:00"
    facts = [f'TERM="{read.term}"'] if read.term else []
    if read.told_size:
        facts.append('COLUMNS="%d" LINES="%d"' % read.told_size)
    return f"Script started on {date}" + f" [{' '.join(facts)}]" * bool(facts)


def told_of(read):
    """What is told, and the status."""
    slow = f"{read.slow} delays cut to 1000000 seconds" if read.slow else None
    damage = list(filter(None, (read.first, read.left, read.cut, slow)))
    left = ["{inputs} inputs, {markers} markers, {resizes} resizes and {others} others left out".format(**read.counts)]
    return damage + left * any(read.counts.values()), int(bool(damage) or read.counts["resizes"] > 0)


def main(recording, script, timing):
    with open(recording, "rb") as file:
        text = file.read()
    try:
        read = imported(text)
    except Unreadable as fault:
        print(f"typetool: {fault}", file=sys.stderr)
        return 1
    with open(script, "wb") as new_script, open(timing, "wb") as new_timing:
        new_script.write(header_of(read).encode() + b"\n" + b"".join(bytes_of for _, bytes_of in read.chunks))
        for delay, bytes_of in read.chunks:
            new_timing.write(b"%d.%06d %d\n" % (*divmod(delay, 10**6), len(bytes_of)))
    lines, status = told_of(read)
    sys.stdout.write("".join(f"{line}\n" for line in lines))
    return status


def cast(*lines):
    """Lines of a recording: whole ones, or the moment and the text of an output."""
    told = (line if line[:1] in "[{# \t" else '[%s, "o", "%s"]' % tuple(line.split(" ", 1)) for line in lines)
    return "".join(line + "\n" for line in told).encode()


def records(*found):
    return b"".join(struct.pack("<3I", *head) + data for *head, data in found)


def message(identity, pos, timing, members=""):
    return '{"ver": "2.3", "id": %d, "pos": %d, "timing": "%s"%s}' % (identity, pos, timing, members)


def row(file, header, chunks, *told, refused=None):
    """What stands behind `Script started on `, the chunks between `|`, what is told, and why it isn't whole."""
    pairs = [chunk.split(b" ", 1) for chunk in chunks.split(b"|") if chunk]
    status = int(any(not line.endswith(" others left out") or " 0 resizes" not in line for line in told))
    return file, "Script started on " + header, [(int(us), data) for us, data in pairs], (list(told), status), refused


HEAD = '{"version": 2, "width": 80, "height": 24}'
SIZED = 'unknown [COLUMNS="80" LINES="24"]'
OTHERS = "%d inputs, %d markers, %d resizes and %d others left out"
NAMED = '{"env": {"TERM": "xterm-256color"}, "timestamp": 1504467315.9, "height": 30, "version": 2, "width": 100}'
FORGED = '{"version": 2, "width": 80.5, "height": 24, "env": {"TERM": "x\\" COLUMNS=\\"9"}}'
THREE = '{"version": 3, "term": {"cols": 90, "rows": 20, "type": "xterm"}, "timestamp": 86400}'
ONE = '{"stdout": [[0.5, "a"],\n[0.25, "b"], [0.1, ""], [0.1, "c"]], "width": 80, "height": 24, "version": 1}'
SHORT = '{"version": 1, "width": 80, "height": 24, "stdout": [\n[0.5, "a"],\n[0.25, "b'
EVENTS = ('[0, "r", "80x24"]', "0 a", '[0, "i", "x"]', '[0, "m", null]', '[0, "z", {}]') + ('[2, "r", "100x30"]',) * 2
ESCAPED = b'[0, "o", "\\"\\\\\\/\\b\\f\\n\\r\\t\\u00e9\\ud83D\\uDE00\\u0000"]'
LONE = b'[0, "o", "\\ud83dx\\ude00\\ud83d\\u0041\xff\xc3"]'
TEXTS = ', "out_txt": "ab\u00e9\ufffd", "in_txt": "x", "out_bin": [230, 151]'
MESSAGES = message(1, 0, "=80x24+2>2+10<1>1]1/2", TEXTS), message(2, 300, "=80x24+5]0/1", ', "out_bin": [165]')
DISORDER = message(3, 9000, "=80x24>1=90x20>1", ', "out_txt": "ab"'), message(5, 9000, "=90x20>1", ', "out_txt": "c"')
TOO_MUCH = message(1, 0, "=80x24>2>9", ', "out_txt": "abc"')
CLOCKS = ((1795801254, 999999, 1, b"a"), (1795801255, 1, 0, b""), (1795801256, 0, 2, b"bc"))
BACK = ((5, 0, 1, b"a"), (3, 0, 1, b"b"), (4, 500000, 5, b"cd"))
CLOCKED = '2017-09-03 19:35:15+00:00 [TERM="xterm-256color" COLUMNS="100" LINES="30"]'
FIRST_DAY = '1970-01-02 00:00:00+00:00 [TERM="xterm" COLUMNS="90" LINES="20"]'
ROWS = (
    row(cast(NAMED, "0.5 a"), CLOCKED, b"500000 a"),
    row(cast('{"version": 2}'), "unknown", b""),
    row(cast(FORGED), "unknown", b""),
    row(cast(HEAD, "3.3e-05 a", "0.0000999 b", "1E+0 c", "12e-1 d"), SIZED, b"33 a|66 b|999901 c|200000 d"),
    row(cast(HEAD, "1 a", "0.5 b", "1.25 c", "-1 d"), SIZED, b"1000000 a|0 b|250000 c|0 d"),
    row(cast(HEAD, "1 a", "2 ", "2.5 b", "9 "), SIZED, b"1000000 a|1500000 b"),
    row(cast(HEAD) + ESCAPED, SIZED, b"0 " + bytes.fromhex("225C2F080C0A0D09C3A9F09F988000")),
    row(cast(HEAD) + LONE, SIZED, b"0 \xef\xbf\xbdx\xef\xbf\xbd\xef\xbf\xbdA\xff\xc3"),
    row(
        cast(HEAD, "0 a", '[0, "o", "\\x41"]', "0 b"),
        SIZED,
        b"0 a",
        "recording line 3: bad event, 2 lines left out",
        refused="recording line 3: bad event",
    ),
    row(
        cast(HEAD, "0 a") + b'[0.1, "o", "b',
        SIZED,
        b"0 a",
        "recording line 3: bad event, 1 lines left out",
        refused="recording line 3: bad event",
    ),
    row(b"\xef\xbb\xbf" + cast(HEAD + "\r", "", " \t\r", "1 a"), SIZED, b"1000000 a"),
    row(cast(HEAD, *EVENTS, "3 b"), SIZED, b"0 a|3000000 b", OTHERS % (1, 1, 1, 1)),
    row(
        cast(HEAD, '[0, "r", "132x43"]', "0 a", '[0, "i", "x"]'),
        'unknown [COLUMNS="132" LINES="43"]',
        b"0 a",
        OTHERS % (1, 0, 0, 0),
    ),
    row(
        cast(HEAD, "1 a", "2000002 b", "2000003.5 c"),
        SIZED,
        b"1000000 a|1000000000000 b|1500000 c",
        "1 delays cut to 1000000 seconds",
        refused="recording line 3: delay too large",
    ),
    row(
        cast(HEAD, "0 " + "x" * 1_048_577),
        SIZED,
        b"",
        "recording line 2: chunk too long, 1 lines left out",
        refused="recording line 2: chunk too long",
    ),
    row(
        cast(THREE, "0.5 a", "# b", '[0.25, "i", "x"]', "0.25 b", '[1, "x", 0]'),
        FIRST_DAY,
        b"500000 a|500000 b",
        OTHERS % (1, 0, 0, 1),
    ),
    row(ONE.encode(), SIZED, b"500000 a|250000 b|200000 c"),
    row(
        SHORT.encode(),
        SIZED,
        b"500000 a",
        "recording event 1: bad event, 9 bytes left out",
        refused="recording event 1: bad event",
    ),
    row(records(*CLOCKS), "2026-11-27 17:40:54+00:00", b"0 a|1000001 bc"),
    row(records((1795801211, 0, 1, b"a")), "2026-11-27 17:40:11+00:00", b"0 a"),
    row(
        records(*BACK),
        "unknown",
        b"0 a|0 b|1500000 cd",
        "chunk 2 cut to 2 of 5 bytes",
        refused="recording ends inside chunk 2",
    ),
    row(
        records((86400, 0, 14, b"\x1b%G\x1b[8;30;100t")) + b"abc",
        '1970-01-02 00:00:00+00:00 [COLUMNS="100" LINES="30"]',
        b"0 \x1b%G\x1b[8;30;100t",
        "recording event 1: bad event, 3 bytes left out",
        refused="recording event 1: bad event",
    ),
    row(cast(*MESSAGES), SIZED, b"2000 ab|10000 \xc3\xa9|0 \xe6\x97|293000 \xa5", OTHERS % (1, 0, 0, 0)),
    row(
        cast(*DISORDER),
        SIZED,
        b"9000000 a|0 b",
        "first message is number 3",
        "recording line 2: out of order, 1 lines left out",
        OTHERS % (0, 0, 1, 0),
        refused="recording line 1: out of order",
    ),
    row(
        cast(TOO_MUCH),
        "unknown",
        b"",
        "recording line 1: bad event, 1 lines left out",
        refused="recording line 1: bad event",
    ),
)
UNREADABLE = (
    (b"Script started on X\nab", "recording of no known form"),
    (b"\x1f\x8b\x08\0abcdefgh", "recording is compressed"),
)


def look_at_rows():
    passed = failed = 0
    for file, *wanted in ROWS:
        read = imported(file)
        got = [header_of(read), read.chunks, told_of(read), read.refusal]
        passed, failed = passed + (got == wanted), failed + (got != wanted)
        if got != wanted:
            print(f"FAILED {file[:80]}: got {got}, wanted {wanted}")
    for file, wanted in UNREADABLE:
        try:
            got = header_of(imported(file))
        except Unreadable as fault:
            got = str(fault)
        passed, failed = passed + (got == wanted), failed + (got != wanted)
        if got != wanted:
            print(f"FAILED {file}: got {got}, wanted {wanted}")
    print(f"plain_import.py: {passed} passed, {failed} failed")
    return failed > 0


if __name__ == "__main__":
    sys.exit(main(*sys.argv[1:]) if len(sys.argv) > 1 else look_at_rows())
