#!/usr/bin/env python3
"""Instructions of `import` on about 1 MiB in each form, over those of `info` on the pair that it writes: wanted are 3
times for a ttyrec, and 12 times for what is JSON.

    bench/imports.py [PROGRAM]

The recordings are the shipped ones, in outputs of 80 bytes each, a millisecond apart. It takes valgrind.
"""
import json
import os
import struct
import sys
import tempfile

import shared
from instructions import counted

SIZE = 1_048_576
STEP = 80


def events(texts):
    """An asciicast of version 2."""
    lines = [json.dumps([at / 1000, "o", text]) for at, text in enumerate(texts)]
    return "\n".join(['{"version": 2, "width": 80, "height": 24}', *lines, ""])


def intervals(texts):
    """One of version 3."""
    lines = [json.dumps([0.001, "o", text]) for text in texts]
    return "\n".join(['{"version": 3, "term": {"cols": 80, "rows": 24}}', *lines, ""])


def entries(texts):
    """One of version 1."""
    return json.dumps({"version": 1, "width": 80, "height": 24, "stdout": [[0.001, text] for text in texts]})


def messages(texts):
    """Messages of tlog."""
    numbered = list(enumerate(texts))
    told = [{"id": at + 1, "pos": at, "timing": f"=80x24>{len(text)}", "out_txt": text} for at, text in numbered]
    return "".join(json.dumps({"ver": "2.3", "rec": "r", **fields}) + "\n" for fields in told)


def records(texts):
    """A ttyrec."""
    return b"".join(struct.pack("<3I", at // 1000, at % 1000 * 1000, len(text)) + text for at, text in enumerate(texts))


def main():
    program = os.path.abspath(sys.argv[1] if len(sys.argv) > 1 else f"{shared.TOP}/bin/typetool")
    body = shared.shipped(SIZE)
    texts = [body[at : at + STEP] for at in range(0, SIZE, STEP)]
    characters = [text.decode("latin-1") for text in texts]
    forms = [(form, form(characters).encode(), 12) for form in (events, intervals, entries, messages)]
    for form, recording, goal in [*forms, (records, records(texts), 3)]:
        with tempfile.TemporaryDirectory(prefix="imports-") as folder:
            paths = [os.path.join(folder, name) for name in ("recording", "script", "timing")]
            with open(paths[0], "wb") as file:
                file.write(recording)
            importing = counted([program, "import", *paths])
            reading = counted([program, "info", *paths[1:]])
        note = f"({importing:,} over {reading:,}; {len(recording):,} bytes)"
        shared.figure(f"import of {form.__name__} over info", importing / reading, goal, note)


if __name__ == "__main__":
    main()
