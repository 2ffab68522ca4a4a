#!/usr/bin/env python3
"""Sees that each wrong body still applies: the edits of crates/CRATE/must-fail/ and of tests/edits/CRATE/.

    tests/edits_apply.py

An `old:` text has to stand exactly once in its file, as the pairs before it in the same edit left that file. Whether
the prover refuses the crate then, `rt ci` and tests/edits.sh try. The last line is 'N passed, M failed'.
"""
import glob
import os
import sys

TOP = os.path.join(os.path.dirname(os.path.abspath(__file__)), "..")


def read(path):
    with open(path, encoding="utf-8") as file:
        return file.read()


def fault_of(edit, crate):
    """Why an edit doesn't apply to its crate, or None."""
    texts, path, old = {}, None, None
    for line in read(edit).split("\n"):
        if line.startswith("file: "):
            path, old = os.path.join(crate, line[6:].strip()), None
        elif line.startswith("old: "):
            old = line[5:]
        elif line.startswith("new:"):
            if not path or not old:
                return "a new: line before its file: or old: line"
            if path not in texts and not os.path.exists(path):
                return f"there is no file {os.path.relpath(path, TOP)}"
            text = texts.get(path) or read(path)
            if text.count(old) != 1:
                return f"an old: text stands {text.count(old)} times in {os.path.relpath(path, TOP)}"
            texts[path], old = text.replace(old, line[4:].removeprefix(" ")), None
    if old:
        return "an old: line without its new: line"
    return None if texts else "no pair of lines"


def main():
    failed = 0
    edits = sorted(
        glob.glob(os.path.join(TOP, "crates/*/must-fail/*.edit")) + glob.glob(os.path.join(TOP, "tests/edits/*/*.edit"))
    )
    for edit in edits:
        parts = os.path.relpath(edit, TOP).split(os.sep)
        crate = parts[1] if parts[0] == "crates" else parts[2]
        fault = fault_of(edit, os.path.join(TOP, "crates", crate))
        if fault:
            failed += 1
            print(f"FAILED {os.path.join(*parts)}: {fault}")
    print(f"edits that apply: {len(edits) - failed} passed, {failed} failed")
    return failed > 0 or not edits


if __name__ == "__main__":
    sys.exit(main())
