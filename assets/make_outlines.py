#!/usr/bin/env python3
"""Writes the outlines of the characters that a picture draws, from outlines.tsv, as the table of the definitions, as
that of the code and as that of the player.

    assets/make_outlines.py --write     writes the tables
    assets/make_outlines.py --check     tells whether they are what --write would write

A line of outlines.tsv has a character's number, the character, and its outline in the words of an SVG path, in a cell
of 10 by 20 units.
"""
import os
import sys
import textwrap

HERE = os.path.dirname(os.path.abspath(__file__))
CRATE = os.path.join(HERE, "..", "crates", "xterm_rows")
# A space inside an entry, at which no line is broken.
GLUE = "\0"


def rows():
    with open(os.path.join(HERE, "outlines.tsv"), encoding="utf-8") as file:
        for line in file:
            number, character, outline = line.rstrip("\n").split("\t")
            code = int(number[2:], 16)
            assert chr(code) == character, line
            yield code, outline


def blocks():
    """The outlines of each block of sixteen characters."""
    found = {}
    for code, outline in rows():
        found.setdefault(code // 16, []).append((code, outline))
    return sorted(found.items())


def definitions():
    lines = [
        "-- The outlines of the characters that are drawn, written by assets/make_outlines.py (ours).",
        "use Rattle.std.specs.Prelude.{ℕ, List, [], ◌∷◌, codes, ◌==◌, if◌then◌else◌}",
    ]
    for block, outlines in blocks():
        lines += [
            "",
            f"-- the characters U+{block:03X}0 to U+{block:03X}F that are drawn",
            f"unfoldable pub block_{block:x} : List (ℕ × List ℕ)",
            f"block_{block:x} =",
        ]
        lines += [f'    (0x{code:04X}, codes "{outline}") ∷  -- {told(code)}' for code, outline in outlines]
        lines.append("    []")
    lines += [
        "",
        "-- the block of this number: the characters from 16 times the number on",
        "unfoldable pub block : ℕ → List (ℕ × List ℕ)",
        "block number =",
    ]
    tests = [f"if number == 0x{block:X} then block_{block:x}" for block, _ in blocks()]
    lines.append("    " + "\n    else (".join(tests) + "\n    else []" + ")" * (len(tests) - 1))
    return "\n".join(lines) + "\n"


def code():
    names = [f"block_{block:x}" for block, _ in blocks()]
    lines = [
        "//! The outlines of the characters that are drawn, written by assets/make_outlines.py.",
        "",
        "ghost use Rattle.std.specs.Prelude.{◌≡◌};",
        "ghost use Rattle.xterm_rows.specs.OutlineTable.{",
        *(f"  {name}," for name in names),
        "};",
        "ghost use Rattle.xterm_rows.specs.Outlines.{outline_in};",
    ]
    for block, outlines in blocks():
        lines += [
            "",
            f"/// The outline of a character from U+{block:03X}0 to U+{block:03X}F; nothing where it has none.",
            f"#[tactic(auto, unfolding(crate::specs::OutlineTable::block_{block:x}))]",
            f"pub(crate) fn outline_{block:x}(character: char) -> &'static [u8]",
            f"    ensures {{ result.now ≡ outline_in block_{block:x} character }}",
            "{",
            "    match character {",
        ]
        lines += [f"        '\\u{{{code:x}}}' => b\"{outline}\", // {told(code)}" for code, outline in outlines]
        lines += ['        _ => b"",', "    }", "}"]
    return "\n".join(lines) + "\n"


def script():
    """The table of the player, in lines of at most 120 characters."""
    lines = [
        "'use strict';",
        "/* exported OUTLINES */",
        "",
        "// The outlines of the characters that are drawn, written by assets/make_outlines.py.",
    ]
    lines += ["const OUTLINES = {"]
    pairs = [f"'{named(code)}': '{outline}'," for code, outline in rows()]
    lines += textwrap.wrap(
        "\n".join(pair.replace(" ", GLUE) for pair in pairs),
        width=120,
        initial_indent="  ",
        subsequent_indent="  ",
        break_long_words=False,
        break_on_hyphens=False,
    )
    return "\n".join([*lines, "};"]).replace(GLUE, " ") + "\n\n"


def named(code):
    """A character in a script."""
    return f"\\u{code:04x}" if 0xE000 <= code < 0xF900 else chr(code)


def told(code):
    """A character in a comment; the arrows of prompts stand in an area for private use, so no font has them."""
    return "an arrow of prompts" if 0xE000 <= code < 0xF900 else chr(code)


FILES = {
    os.path.join(CRATE, "specs", "OutlineTable.antt"): definitions,
    os.path.join(CRATE, "src", "outline_table.rt"): code,
    os.path.join(HERE, "outlines.js"): script,
}


def check():
    failed = 0
    for path, text in FILES.items():
        with open(path, encoding="utf-8") as file:
            if file.read() != text():
                print(f"{os.path.relpath(path)}: not what assets/make_outlines.py --write would write")
                failed += 1
    print(f"outlines: {len(FILES) - failed} passed, {failed} failed")
    return failed > 0


def main():
    if sys.argv[1:] == ["--check"]:
        return check()
    if sys.argv[1:] == ["--write"]:
        for path, text in FILES.items():
            with open(path, "w", encoding="utf-8") as file:
                file.write(text())
        return 0
    print(__doc__)
    return 2


if __name__ == "__main__":
    sys.exit(main())
