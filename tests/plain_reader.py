"""A plain reader of script(1)'s pair of files, and a plain model of edits: what the program is compared with.

It is written from docs/FORMATS.md alone and shares nothing with the program.
"""
import re

MOST_CHUNKS = 1_000_000
LONGEST_CHUNK = 1_048_576
LONGEST_BODY = 1_073_741_824
LONGEST_DELAY = 10**12
GREATEST = 10**18


def micros(text):
    """The microseconds of decimal seconds, or None."""
    match = re.fullmatch(rb"([0-9]+)(?:\.([0-9]*))?", text)
    if not match:
        return None
    return int(match[1]) * 1_000_000 + int(((match[2] or b"") + b"000000")[:6])


def seconds(text):
    """A moment or a delay of a request line."""
    value = micros(text)
    return None if value is None else min(value, GREATEST)


def written(us):
    """Microseconds in the form of all output."""
    return b"%d.%06d" % divmod(us, 1_000_000)


def fields(line):
    """What stands between runs of spaces and tabs."""
    return [piece for piece in re.split(rb"[ \t]+", line) if piece]


def lines_of(text):
    pieces = text.split(b"\n")
    return pieces[:-1] if pieces[-1] == b"" else pieces


def entry_of(words):
    """(delay, count) of a line that isn't blank, or the words of its fault."""
    if re.match(rb"[A-Za-z]", words[0]):
        return "multi-stream format"
    signed = words[0].startswith(b"-")
    delay = micros(words[0][1:] if signed else words[0])
    if delay is None:
        return "bad delay"
    if len(words) != 2 or not re.fullmatch(rb"[0-9]+", words[1]):
        return "bad count"
    delay, count = 0 if signed else delay, int(words[1])
    if delay > LONGEST_DELAY:
        return "delay too large"
    return "chunk too long" if count > LONGEST_CHUNK else (delay, count)


def read(script, timing):
    """(header, chunks, trailer) of a pair, each chunk [delay, bytes]; or the text of its fault."""
    entries, total = [], 0
    for number, line in enumerate(lines_of(timing), 1):
        words = fields(line)
        if not words:
            continue
        entry = entry_of(words)
        if isinstance(entry, str):
            return f"timing line {number}: {entry}"
        if len(entries) == MOST_CHUNKS:
            return f"timing line {number}: too many chunks"
        total += entry[1]
        if total > LONGEST_BODY:
            return f"timing line {number}: too many bytes"
        entries.append(entry)
    at = script.find(b"\n") + 1
    if at == 0:
        return "typescript has no header line"
    header, chunks = script[:at], []
    for number, (delay, count) in enumerate(entries):
        if at + count > len(script):
            return f"typescript ends inside chunk {number}"
        chunks.append([delay, script[at : at + count]])
        at += count
    return header, chunks, script[at:]


def hint(fault, script, timing):
    """The line behind the fault of a pair: what to do about it."""
    swapped = timing.startswith(b"Script started on ")
    words = next((fields(line) for line in lines_of(timing) if fields(line)), [b""])
    if fault == "typescript has no header line":
        empty, headless = (
            "the typescript is empty: was a save interrupted?",
            "takes a typescript without its header line",
        )
        text = f"typetool mend --headless {headless}" if script else empty
    elif fault.startswith("timing line 1:") and swapped:
        text = "the timing file comes second: SCRIPT TIMING"
    elif fault.endswith("multi-stream format") and words[0] in (b"H", b"I", b"O", b"S"):
        text = "typetool mend writes this in the classic format"
    else:
        text = "typetool mend keeps what can be read"
    return f"typetool: hint: {text}\n"


def told(fault, script, timing):
    """What is told of the fault of a pair."""
    return f"typetool: {fault}\n{hint(fault, script, timing)}".encode()


def due(chunks, moment):
    """The bytes of the chunks that are due by a moment."""
    time, out = 0, b""
    for delay, text in chunks:
        time += delay
        if time > moment:
            break
        out += text
    return out


def info(recording):
    header, chunks, trailer = recording
    return b"chunks %d\nbytes %d\nlength %s\nheader %d\ntrailer %d\n" % (
        len(chunks),
        sum(len(text) for _, text in chunks),
        written(sum(delay for delay, _ in chunks)),
        len(header),
        len(trailer),
    )


def files_of(recording):
    """Both files of a recording, as the program writes them."""
    header, chunks, trailer = recording
    timing = b"".join(written(delay) + b" %d\n" % len(text) for delay, text in chunks)
    return header + b"".join(text for _, text in chunks) + trailer, timing


def place(text):
    return min(int(text), GREATEST) if re.fullmatch(rb"[0-9]+", text) else None


def hexed(text):
    if text == b"-":
        return b""
    if len(text) < 2 or len(text) % 2 or not re.fullmatch(rb"[0-9a-fA-F]+", text):
        return None
    return bytes.fromhex(text.decode())


KINDS = {
    b"insert": (place, seconds, hexed),
    b"delete": (place, place),
    b"replace": (place, hexed),
    b"retime": (place, seconds),
    b"cap": (seconds,),
}


def edit_of(line):
    """(word, values) of an edit's request line, or None where it is of no such form."""
    words = fields(line)
    kinds = KINDS.get(words[0]) if words else None
    if kinds is None or len(words) != len(kinds) + 1:
        return None
    values = [kind(word) for kind, word in zip(kinds, words[1:])]
    return None if None in values else (words[0], values)


def edit_fault(chunks, word, values):
    """The first fault of an edit on these chunks, or None."""
    count, body = len(chunks), sum(len(text) for _, text in chunks)
    if word == b"delete":
        return None if values[0] < values[1] <= count else "E6 BadRange"
    at = values[0] if word != b"cap" else 0
    delay = {b"insert": 1, b"retime": 1, b"cap": 0}.get(word)
    text = values[-1] if word in (b"insert", b"replace") else b""
    if word == b"insert" and at > count or word in (b"replace", b"retime") and at >= count:
        return "E1 NoSuchChunk"
    if delay is not None and values[delay] > LONGEST_DELAY:
        return "E2 DelayTooLarge"
    if len(text) > LONGEST_CHUNK:
        return "E3 ChunkTooLong"
    if word == b"insert" and count >= MOST_CHUNKS:
        return "E4 TooManyChunks"
    gone = len(chunks[at][1]) if word == b"replace" else 0
    return "E5 TooManyBytes" if body - gone + len(text) > LONGEST_BODY else None


def apply(chunks, word, values):
    """Makes an edit without a fault."""
    if word == b"insert":
        chunks.insert(values[0], [values[1], values[2]])
    elif word == b"delete":
        del chunks[values[0] : values[1]]
    elif word == b"replace":
        chunks[values[0]] = [chunks[values[0]][0], values[1]]
    elif word == b"retime":
        chunks[values[0]] = [values[1], chunks[values[0]][1]]
    else:
        for chunk in chunks:
            chunk[0] = min(chunk[0], values[0])


def log_line(word, values):
    """An accepted edit as the log writes it."""
    write = {place: lambda value: b"%d" % value, seconds: written, hexed: lambda value: value.hex().encode() or b"-"}
    return b" ".join([word, *(write[kind](value) for kind, value in zip(KINDS[word], values))]) + b"\n"


def session(recording, requests, ask=lambda chunks, words: None):
    """(status, text) of the answers to edits, `info`, `log` and lines of no known form. What is asked of a terminal is
    answered by `ask`, which has None for everything else: there is no terminal here."""
    header, chunks, trailer = recording
    chunks, log, out, status = [list(chunk) for chunk in chunks], b"", b"", 0
    for line in lines_of(requests):
        edit = edit_of(line)
        fault = edit_fault(chunks, *edit) if edit else "E8 BadLine"
        if not fields(line):
            continue
        if fields(line) == [b"info"]:
            out += info((header, chunks, trailer))
        elif fields(line) == [b"log"]:
            out += log + b"end\n"
        elif (answer := ask(chunks, fields(line))) is not None:
            out += answer
        elif fault:
            out, status = out + f"refused {fault}\n".encode(), 1
        else:
            apply(chunks, *edit)
            out, log = out + b"ok\n", log + log_line(*edit)
    return status, out


def save(recording, requests):
    """The two files that `save` writes, or the text of the first refused line's fault."""
    header, chunks, trailer = recording
    chunks = [list(chunk) for chunk in chunks]
    for number, line in enumerate(lines_of(requests), 1):
        if not fields(line):
            continue
        edit = edit_of(line)
        fault = "E8 BadLine" if edit is None else edit_fault(chunks, *edit)
        if fault:
            return f"request line {number}: {fault}"
        apply(chunks, *edit)
    return files_of((header, chunks, trailer))
