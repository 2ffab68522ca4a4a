#!/usr/bin/env python3
"""Cuts a pair of files, and recordings of other forms, at every byte, and meets each limit of a recording at its value
and one past it.

    tests/limits.py TYPETOOL

What is expected is written out here, or comes from the plain readers (plain_reader.py, mend_reader.py,
plain_import.py, check_reader.py). The last line is 'N passed, M failed'.
"""
import os
import struct
import subprocess
import sys
import tempfile

import check_reader
import mend_reader
import plain_import
import plain_reader as plain

program = os.path.abspath(sys.argv[1])
HEADER = b"Script started on X\n"
passed = failed = 0


def run(words, stdin=b""):
    done = subprocess.run([program, *words], input=stdin, capture_output=True, timeout=120)
    return done.returncode, done.stdout, done.stderr


def put(name, text):
    with open(name, "wb") as file:
        file.write(text)


def check(name, got, wanted):
    global passed, failed
    if got == wanted:
        passed += 1
    else:
        failed += 1
        print(f"FAILED {name}: got {str(got)[:300]}, wanted {str(wanted)[:300]}")


def told(fault):
    """Of the pair in the files s and t."""
    return 1, b"", plain.told(fault, *open_all("s", "t"))


def refused(fault):
    """Of a request line that save refuses."""
    hint = "NEWSCRIPT and NEWTIMING stay, empty: remove them before you try again"
    return 1, b"", f"typetool: {fault}\ntypetool: hint: {hint}\n".encode()


def pair(script, timing):
    put("s", script)
    put("t", timing)


def chunk_count(name, chunks, trailer):
    """A pair that is read, with so many chunks and so long a trailer."""
    lines = run(["info", "s", "t"])[1].split(b"\n")
    check(name, (lines[:1], lines[4:5]), ([b"chunks %d" % chunks], [b"trailer %d" % trailer]))


def cut_scripts():
    """The script cut to n bytes: no header, then a chunk that isn't whole, then all."""
    for n in range(24):
        pair((HEADER + b"aXb")[:n], b"0.000000 1\n0.250000 1\n0.500000 1\n")
        if n < 20:
            check(f"script of {n} bytes", run(["info", "s", "t"]), told("typescript has no header line"))
        elif n < 23:
            check(f"script of {n} bytes", run(["info", "s", "t"]), told(f"typescript ends inside chunk {n - 20}"))
        else:
            chunk_count("the whole script", 3, 0)


def cut_timings():
    """The timing cut to 11 q + r bytes: q chunks, a bad count, or q + 1 chunks where only the LF is missing."""
    for n in range(34):
        lines, rest = divmod(n, 11)
        pair(HEADER + b"aXb", b"0.000000 1\n0.250000 1\n0.500000 1\n"[:n])
        if 1 <= rest <= 9:
            check(f"timing of {n} bytes", run(["info", "s", "t"]), told(f"timing line {lines + 1}: bad count"))
        else:
            chunk_count(f"timing of {n} bytes", lines + (rest == 10), 3 - lines - (rest == 10))


def cut_both(folder):
    """Both files of a real recording's beginning, cut at every place, as the plain reader finds them."""
    with open(os.path.join(folder, "nano.script"), "rb") as one, open(os.path.join(folder, "nano.timing"), "rb") as two:
        header, chunks, trailer = plain.read(one.read(), two.read())
    script, timing = plain.files_of((header, [[delay, text[:9]] for delay, text in chunks[:5]], b"end\n"))
    for cut in range(len(script) + len(timing) + 1):
        pair(script[:cut], timing[: len(script) + len(timing) - cut])
        recording = plain.read(script[:cut], timing[: len(script) + len(timing) - cut])
        wanted = told(recording) if isinstance(recording, str) else (0, plain.info(recording), b"")
        check(f"both files cut, {cut} bytes of script", run(["info", "s", "t"]), wanted)


def limits_of_files():
    """Chunks, bytes of a chunk and of a body, delays: each at its value and one past it."""
    pair(HEADER, b"0 0\n" * 1_000_000)
    chunk_count("1,000,000 chunks", 1_000_000, 0)
    pair(HEADER, b"0 0\n" * 1_000_001)
    check("a chunk more", run(["info", "s", "t"]), told("timing line 1000001: too many chunks"))
    pair(HEADER, b"0 1048576\n")
    check("a chunk of 1 MiB", run(["info", "s", "t"]), told("typescript ends inside chunk 0"))
    pair(HEADER, b"0 1048577\n")
    check("a byte more", run(["info", "s", "t"]), told("timing line 1: chunk too long"))
    pair(HEADER, b"0 1048576\n" * 1024)
    check("a body of 1 GiB", run(["info", "s", "t"]), told("typescript ends inside chunk 0"))
    pair(HEADER, b"0 1048576\n" * 1024 + b"0 1\n")
    check("a byte more in the body", run(["info", "s", "t"]), told("timing line 1025: too many bytes"))
    pair(HEADER, b"1000000 0\n1000000.0000009 0\n")
    chunk_count("the longest delay", 2, 0)
    pair(HEADER, b"1000000.000001 0\n")
    check("a microsecond more", run(["info", "s", "t"]), told("timing line 1: delay too large"))


def mended(name, how=""):
    """Mends the pair, as the plain reading does."""
    new = ("s2", "t2")
    answer = run(["mend", *filter(None, [how]), "s", "t", *new])
    script, timing = open_all("s", "t")
    wanted = mend_reader.mend(how, script, timing)
    if wanted is None:
        check(f"mend {how} {name}", (answer, open_all(*new)), (told("typescript has no header line"), [b"", b""]))
    else:
        new_script, new_timing, losses, status = wanted
        check(
            f"mend {how} {name}", (answer, open_all(*new)), ((status, losses.encode(), b""), [new_script, new_timing])
        )
    for path in new:
        os.remove(path)


def open_all(*names):
    texts = []
    for name in names:
        with open(name, "rb") as file:
            texts.append(file.read())
    return texts


def mended_everywhere():
    """A pair of either format, cut at every byte and mended with each flag."""
    classic = b"0.000000 1\n0.250000 1\n0.500000 1\n"
    streams = b"H 0 OUTPUT_LOG x\nH 0 INPUT_LOG x\nO 0.5 1\nI 0.25 1\nS 1 WINCH\nO 0.25 1\n"
    for timing in (classic, streams):
        for n in range(24):
            pair((HEADER + b"aXb")[:n], timing)
            for how in ("", "--last", "--headless"):
                mended(f"script of {n} bytes", how)
        for n in range(len(timing)):
            pair(HEADER + b"aXb", timing[:n])
            mended(f"timing of {n} bytes")


def limits_of_mending():
    """Each limit at its value and one past it: what is past it is left out, and the rest is read."""
    for name, line, count, fault in [
        ("chunks", b"0 0\n", 1_000_001, "too many chunks"),
        ("outputs", b"O 0 0\n", 1_000_001, "too many chunks"),
        ("bodies", b"0 1048576\n", 1025, "too many bytes"),
    ]:
        pair(HEADER, line * (count - 1))
        mended(f"{name} up to the limit")
        pair(HEADER, line * count)
        check(
            f"mend {name} past the limit",
            run(["mend", "s", "t", "s2", "t2"])[1].split(b"\n")[0],
            f"timing line {count}: {fault}, 1 lines left out".encode(),
        )
        os.remove("s2")
        os.remove("t2")
    for timing in [
        b"0 1048576\n",
        b"0 1048577\n",
        b"1000000 0\n",
        b"1000000.000001 0\n",
        b"S 600000 x\nO 400000 0\nO 1000000 0\n",
        b"S 600000 x\nO 400000.000001 0\n",
        b"I 0 1048576\n",
        b"I 0 1048577\n",
    ]:
        pair(HEADER, timing)
        mended(timing.decode())


def imported(name, file):
    """Imports a recording, as the plain reading does."""
    put("r", file)
    answer = run(["import", "r", "s2", "t2"])
    try:
        read = plain_import.imported(file)
        losses, status = plain_import.told_of(read)
        wanted = status, "".join(f"{line}\n" for line in losses).encode()
        script = plain_import.header_of(read).encode() + b"\n" + b"".join(data for _, data in read.chunks)
        timing = b"".join(b"%s %d\n" % (plain.written(delay), len(data)) for delay, data in read.chunks)
    except plain_import.Unreadable as fault:
        wanted, script, timing = (1, b"", str(fault)), b"", b""
        answer = answer[:2] + (answer[2].decode().partition("\n")[0].removeprefix("typetool: "),)
    else:
        wanted += (b"",)
    check(f"import {name}", (answer, open_all("s2", "t2")), (wanted, [script, timing]))
    os.remove("s2")
    os.remove("t2")


def records(*found):
    """A ttyrec of these seconds, microseconds and bytes."""
    return b"".join(struct.pack("<3I", second, micros, len(data)) + data for second, micros, data in found)


def imported_everywhere():
    """A recording of each form, cut at every byte."""
    two = b'{"version": 2, "width": 80, "height": 24, "env": {"TERM": "xterm"}}\n[0.5, "o", "a\\u00e9"]\n[1, "m", ""]\n'
    three = b'\xef\xbb\xbf{"version": 3, "term": {"cols": 80, "rows": 24}, "timestamp": 86400}\n# a\n[0.5, "o", "a"]\n'
    one = b'{"version": 1, "width": 80, "height": 24, "stdout": [[0.5, "a"],\n [1e-1, "b"]], "title": null} \n'
    shown = b'{"ver": "2.3", "rec": "r", "id": %d, "pos": 9, "timing": "=80x24+5>1]1/1", '
    shown += b'"out_txt": "ab", "out_bin": [27]}\n'
    sized = records((86400, 0, b"\x1b%G\x1b[8;24;80ta"), (86400, 500000, b"bc"))
    for file in (two, three, one, shown % 1 + shown % 2, sized):
        for n in range(len(file) + 1):
            imported(f"{file[:30]} up to byte {n}", file[:n])


def limits_of_importing():
    """Each limit at its value and one past it: what is past it is left out, and the rest is read."""
    head, second = b'{"version": 2}\n', b'[%s, "o", "b"]\n'
    for length in (1_048_576, 1_048_577):
        imported(f"an output of {length} bytes", head + b'[0, "o", "' + b"x" * length + b'"]\n' + second % b"0")
        imported(f"a record of {length} bytes", records((0, 0, b"x" * length), (0, 0, b"a")))
    for moment in (b"1000000", b"1000000.000001", b"1000000000000", b"1000000000001", b"9" * 30):
        imported(f"an output at {moment}", head + b'[0, "o", "a"]\n' + second % moment + second % (moment + b"1"))
    for seconds in (86_399, 86_400, 253_402_300_799, 253_402_300_800):
        imported(f"the second {seconds}", b'{"version": 2, "timestamp": %d.9}' % seconds)
    for side in (0, 1, 9_999, 10_000):
        imported(f"{side} columns", b'{"version": 2, "width": %d, "height": 1}' % side)
    for length in (0, 1, 64, 65):
        imported(f"a terminal of {length} letters", b'{"version": 2, "env": {"TERM": "%s"}}' % (b"x" * length))
    for depth in (63, 64):
        imported(f"arrays in an event, {depth} deep", head + b'[0, "x", ' + b"[" * depth + b"]" * depth + b"]\n")
    many = records((0, 0, b"x")) * 1_000_000
    imported("1,000,000 chunks", many)
    imported("a chunk more", many + records((0, 0, b"x")))
    with open("r", "wb") as file:
        for at in range(1024):
            file.seek(at * (12 + 1_048_576))
            file.write(struct.pack("<3I", 0, 0, 1_048_576))
        file.seek(1024 * (12 + 1_048_576))
        file.write(records((0, 0, b"x")))
    told_of = b"recording event 1024: too many bytes, 13 bytes left out\n"
    check("a byte more than a body of 1 GiB", run(["import", "r", "s2", "t2"]), (1, told_of, b""))
    check("the body of 1 GiB", os.path.getsize("s2"), len(b"Script started on unknown\n") + (1 << 30))
    for name in ("r", "s2", "t2"):
        os.remove(name)


def saved(lines):
    """What `save` answers to these lines. Both new files are taken away again."""
    answer = run(["save", "s", "t", "s2", "t2"], lines)
    os.remove("s2")
    os.remove("t2")
    return answer


def limits_of_edits():
    """Places, delays, chunks and bytes of edits, each a line of its own to `save`."""
    pair(HEADER + b"ab", b"0 1\n0.5 1\n")
    longest = b"41" * 1_048_576
    for line, answer in [
        (b"insert 2 1000000 -", ""),
        (b"insert 3 0 -", "E1 NoSuchChunk"),
        (b"insert 0 1000000.000001 -", "E2 DelayTooLarge"),
        (b"retime 0 1000000.000001", "E2 DelayTooLarge"),
        (b"cap 1000000.000001", "E2 DelayTooLarge"),
        (b"cap 1000000", ""),
        (b"insert 0 0 " + longest, ""),
        (b"insert 0 0 " + longest + b"41", "E3 ChunkTooLong"),
        (b"replace 0 " + longest, ""),
        (b"replace 1 " + longest + b"41", "E3 ChunkTooLong"),
        (b"replace 2 -", "E1 NoSuchChunk"),
        (b"delete 0 2", ""),
        (b"delete 0 3", "E6 BadRange"),
        (b"delete 1 1", "E6 BadRange"),
        (b"delete 99999999999999999999 99999999999999999999", "E6 BadRange"),
        (b"insert 99999999999999999999 0 -", "E1 NoSuchChunk"),
    ]:
        check(
            line[:40].decode(), saved(line + b"\n"), refused(f"request line 1: {answer}") if answer else (0, b"", b"")
        )
        text = f"refused {answer}\n" if answer else "ok\n"
        check(
            line[:40].decode() + " in a session",
            run(["session", "s", "t"], line),
            (int(bool(answer)), text.encode(), b""),
        )
    pair(HEADER, b"0 0\n" * 999_999)
    check("chunks by edits", saved(b"insert 0 0 -\ninsert 0 0 -\n"), refused("request line 2: E4 TooManyChunks"))
    check(
        "chunks by edits in a session",
        run(["session", "s", "t"], b"insert 0 0 -\ninsert 0 0 -\n"),
        (1, b"ok\nrefused E4 TooManyChunks\n", b""),
    )


def stamps():
    """What tells whether the old files were touched."""
    return [(os.stat(name).st_size, os.stat(name).st_mtime_ns) for name in ("s", "t")]


def not_made(name, words, fault):
    """A cut or an excerpt that a limit refuses: the old files stay as they were, and the new ones empty."""
    old = stamps()
    check(name, run([*words, "s", "t", "s2", "t2"]), refused(fault))
    parts = [path for path in ("s2.part", "t2.part") if os.path.exists(path)]
    check(f"{name}, the files", (stamps(), open_all("s2", "t2"), parts), (old, [b"", b""], []))
    os.remove("s2")
    os.remove("t2")


def most_chunks_of_cuts():
    """A text comes in where there are as many chunks as there may be; and where there is room for one."""
    pair(HEADER, b"1 0\n" + b"0 0\n" * 999_999)
    not_made("a chunk more by an excerpt", ["excerpt"], "E4 TooManyChunks")
    pair(HEADER, b"1 0\n" + b"0 0\n" * 999_998)
    check("an excerpt of 1,000,000 chunks", run(["excerpt", "s", "t", "s2", "t2"]), (0, b"", b""))
    os.rename("s2", "s")
    os.rename("t2", "t")
    chunk_count("1,000,000 chunks of an excerpt", 1_000_000, 0)
    # The text of this screen, of which each cell has its rendition, takes two chunks where one goes.
    screen = (b"\x1b[1mA\x1b[mB" * 200_000)[:1_048_576]
    words = ["cut", "--from", "0.5", "--to", "1", "--profile", "xterm", "--size", "1000x500"]
    pair(HEADER + screen, b"1 1048576\n1 0\n" + b"0 0\n" * 999_998)
    not_made("a chunk more by a cut", words, "E4 TooManyChunks")


def longest_body_of_cuts():
    """A text comes in where there is room for a byte."""
    put("t", b"1 1048575\n" + b"0 1048576\n" * 1023)
    not_made("a body too long by an excerpt", ["excerpt"], "E5 TooManyBytes")
    put("t", b"1 1\n1 1048574\n" + b"0 1048576\n" * 1023)
    not_made("a body too long by a cut", ["cut", "--from", "0.5", "--to", "1"], "E5 TooManyBytes")


def full_body():
    """Edits of a recording with the most chunks and room for one byte. Of several faults of an edit the first one of E1
    to E8 is told; tests of pairs without E5 stand in crates/tape_tests."""
    with open("s", "wb") as script:
        script.write(b"\n")
        script.truncate(1 << 30)
    put("t", b"0 1048575\n" + b"0 1048576\n" * 1023 + b"0 0\n" * (1_000_000 - 1024))
    longest, longer = b"41" * 1_048_576, b"41" * 1_048_577
    rows = [
        (b"insert 1000001 0 4141", "E1 NoSuchChunk"),
        (b"insert 0 1000000.000001 4141", "E2 DelayTooLarge"),
        (b"insert 0 0 " + longer, "E3 ChunkTooLong"),
        (b"insert 0 0 4141", "E4 TooManyChunks"),
        (b"replace 1000000 4141", "E1 NoSuchChunk"),
        (b"replace 1024 " + longer, "E3 ChunkTooLong"),
        (b"replace 1024 4141", "E5 TooManyBytes"),
        (b"delete 1024 1025", ""),
        (b"insert 0 0 4141", "E5 TooManyBytes"),
        (b"insert 0 1000000 41", ""),
        (b"replace 1025 41", "E5 TooManyBytes"),
        (b"replace 0 -", ""),
        (b"replace 1 " + longest, ""),
        (b"replace 0 41", "E5 TooManyBytes"),
    ]
    status, out, err = run(["session", "s", "t"], b"\n".join([line for line, _ in rows]))
    check("a full body", (status, err), (1, b""))
    for (line, answer), got in zip(rows, out.split(b"\n")):
        check("a full body: " + line[:40].decode(), got.decode(), f"refused {answer}" if answer else "ok")
    check("a byte too many", saved(b"cap 1\nreplace 1024 4141\n"), refused("request line 2: E5 TooManyBytes"))
    longest_body_of_cuts()
    os.remove("s")


def limits_of_words():
    """Seconds, and chunks between stored terminals."""
    pair(HEADER + b"ab", b"0 1\n0.5 1\n")
    for at in ("1000000000000", "1000000000000.000001", "9" * 60):
        check(f"due at {at}", run(["due", "--at", at, "s", "t"]), (0, b"ab", b""))
        check(f"changes by {at}", run(["changes", "--to", at, "s", "t"]), (0, b"0 0.000000 1\n1 0.500000 1\n", b""))
        check(f"changes after {at}", run(["changes", "--from", at, "--to", at, "s", "t"]), (0, b"", b""))
    for every, status in [
        ("0", 2),
        ("1", 0),
        ("1000000", 0),
        ("1000001", 2),
        ("9" * 60, 2),
        ("+5", 2),
        ("", 2),
        ("-1", 2),
        ("005", 0),
    ]:
        check(f"every {every}", run(["session", f"--every={every}", "s", "t"])[0], status)
    for size, ends in (("2x1", b"\n"), ("1000x500", b"\n" * 500)):
        words = ["session", "--profile", "xterm", "--size", size, "s", "t"]
        answers = b"a" + ends + b"ab" + ends + b"a" + ends
        check(f"a session of {size}", run(words, b"screen 0\nscreen 1\nscreen 0\n"), (0, answers, b""))


def found_texts():
    """The longest texts that a screen can show, and one more character; a text of which there is nothing to find."""
    for columns, wide in ((80, b""), (132, b"\x1b[?3h")):
        full = wide + b"x" * (24 * columns)
        pair(HEADER + full, b"0 %d\n" % len(full))
        line = b"+ 0 0.000000 1 1 " + b"x" * (24 * columns) + b"\n"
        check(f"a screen of {columns} columns", run(["find", "x" * (24 * columns), "s", "t"]), (0, line, b""))
        check(f"more than {columns} columns", run(["find", "x" * (24 * columns + 1), "s", "t"]), (1, b"", b""))
    for columns, lines in ((2, 1), (3, 2), (41, 6)):
        words = ["--profile", "xterm", "--size", f"{columns}x{lines}"]
        # Where columns are odd the last one stays free of a character of two columns, and doesn't end the row.
        for text in ("x" * (columns * lines), "日" * (columns // 2 * lines)):
            full = text.encode()
            pair(HEADER + full, b"0 %d\n" % len(full))
            line = b"+ 0 0.000000 1 1 " + full + b"\n"
            check(f"{columns}x{lines}, full of {text[0]}", run(["find", *words, text, "s", "t"]), (0, line, b""))
            check(f"more than that of {text[0]}", run(["find", *words, text + text[0], "s", "t"]), (1, b"", b""))
    pair(HEADER + b"\x1b[500;999Hab", b"0 12\n")
    words = ["find", "--profile", "xterm", "--size", "1000x500", "ab", "s", "t"]
    check("the largest screen", run(words), (0, b"+ 0 0.000000 500 999 " + b" " * 998 + b"ab\n", b""))
    for text in ("", " " * 9, "a\x1f", "\x7f", "a\u0080", "\u009f"):
        check(f"find {text!r}", run(["find", text, "nowhere", "nowhere"]), (2, b"", b"typetool: bad text\n"))
    for text in ("~", "\u00a0", "\U0010ffff", "x" * 100_000):
        check(f"find {text[:9]!r}", run(["find", text, "s", "t"]), (1, b"", b""))


def shown_moments():
    """The greatest moment, and whatever is above it."""
    pair(HEADER + b"ab", b"0 1\n0.5 1\n")
    for at in ("1000000000000", "1000000000000.000001", "9" * 60):
        status, picture, errors = run(["picture", "--at", at, "s", "t"])
        title = b"<title>Screen at 1000000000000.000000 s</title>"
        check(f"picture at {at}", (status, title in picture, errors), (0, True, b""))
        check(f"find by {at}", run(["find", "--to", at, "b", "s", "t"])[1], b"+ 1 0.500000 1 2 ab\n")
        stands = b"= 2 1000000000000.000000 1 2 ab\n"
        check(f"find after {at}", run(["find", "--from", at, "b", "s", "t"]), (0, stands, b""))


def counted_sequences():
    """Each name of a switch of modes that there is, and as many sequences as there may be chunks."""
    switches = b"".join(b"\x1b[%dh\x1b[?%dl" % (n, n) for n in range(10_001))
    pair(HEADER + switches, b"0 %d\n" % len(switches))
    script, timing = open_all("s", "t")
    header, chunks, trailer = plain.read(script, timing)
    for profile in ("vt100", "vt102"):
        text, status = check_reader.check(profile, header, chunks[0][1], trailer)
        check("each switch", run(["check", "--profile", profile, "s", "t"]), (status, text, b""))
    pair(HEADER + b"\x1bN" * 1_000_000, b"0 2\n" * 1_000_000)
    check(
        "a million sequences",
        run(["check", "s", "t"]),
        (1, b"started X\nunplayed 1000000 ESC N\ntry --profile xterm\n", b""),
    )


def most_chunks():
    """A page and a cast of as many chunks as there may be, which show nothing."""
    pair(HEADER, b"0 0\n" * 1_000_000)
    status, page, errors = run(["page", "s", "t"])
    check("a page of 1,000,000 chunks", (status, page.count(b"\n[0.000000,0,1,1]"), errors), (0, 1_000_000, b""))
    cast = b'{"version": 2, "width": 80, "height": 24}\n'
    check("a cast of 1,000,000 chunks", run(["cast", "s", "t"]), (0, cast, b""))
    check("find in 1,000,000 chunks", run(["find", "a", "s", "t"]), (1, b"", b""))


def parameters():
    """The 16 parameters that count, each at most 9,999."""
    bold = b"\x1b[" + b"0;" * 15 + b"20h" + b"a\n" + b"\x1b[" + b"0;" * 16 + b"20lb\nc"
    put("s", HEADER + bold)
    put("t", b"0 %d\n" % len(bold))
    # LNM is set as the 16th parameter, and isn't reset by a 17th.
    check("16 parameters", run(["screen", "--at", "0", "s", "t"])[1][:6], b"a\nb\nc\n")
    far = b"\x1b[99999;99999Hx\x1b[18446744073709551617;1Hy\x1b[6n"
    put("s", HEADER + far)
    put("t", b"0 %d\n" % len(far))
    check("9,999", run(["reports", "--at", "0", "s", "t"])[1], b"\x1b[24;2R".hex().encode() + b"\n")


def main():
    recordings = os.path.join(os.path.dirname(os.path.abspath(__file__)), "recordings")
    with tempfile.TemporaryDirectory() as folder:
        os.chdir(folder)
        cut_scripts()
        cut_timings()
        cut_both(recordings)
        mended_everywhere()
        imported_everywhere()
        limits_of_files()
        limits_of_mending()
        limits_of_importing()
        limits_of_edits()
        full_body()
        most_chunks_of_cuts()
        limits_of_words()
        found_texts()
        shown_moments()
        counted_sequences()
        most_chunks()
        parameters()
    print(f"limits: {passed} passed, {failed} failed")
    return failed > 0


sys.exit(main())
