#!/usr/bin/env python3
"""Puts the player of a page together of its parts: HTML, four styles (a picture's of a VT100, one's of a terminal of
today, the page's own, and what it looks like without a script), the outlines of characters and the script.

    assets/make_page.py DATA [TITLE]  writes the page of this title with the entries that the file DATA has
    assets/make_page.py --write       writes the player as the constants of the program that writes pages
    assets/make_page.py --check       tells whether those constants are what --write would write

The page allows itself nothing but these styles and this script, by their hashes.
"""
import base64
import hashlib
import html
import os
import sys

HERE = os.path.dirname(os.path.abspath(__file__))
CONSTANTS = os.path.join(HERE, "..", "crates", "screen_page", "src", "player.rt")


def part(name):
    with open(os.path.join(HERE, name), encoding="utf-8") as file:
        return file.read()


def hash_of(text):
    return "sha256-" + base64.b64encode(hashlib.sha256(text.encode()).digest()).decode()


def parts():
    """What stands before the title, between it and the heading, between this and the data, and behind the data."""
    page = part("page.html")
    texts = {
        "DRAWING": part("drawing.css"),
        "TODAY": part("drawing_today.css"),
        "STYLE": "\n" + part("page.css"),
        "PLAIN": "\n" + part("noscript.css"),
        "SCRIPT": "\n" + part("outlines.js") + part("page.js"),
    }
    for name, text in texts.items():
        page = page.replace(f"{name}_HASH", hash_of(text)).replace(f">{name}<", f">{text}<")
    front, tail = page.split("DATA")
    return [*front.split("TITLE"), tail]


def titled(text):
    """A title as it stands in the page: none of it is markup or a control character."""
    return html.escape("".join("?" if ord(c) < 32 or 127 <= ord(c) < 160 else c for c in text), quote=False)


def constants():
    """The player as source code: texts between quotes that none of them has."""
    texts = parts()
    quote = next(marks for marks in ("#", "##", "###", "####") if f'"{marks}' not in "".join(texts))
    names = (
        ("HEAD", "What stands before the title of a page."),
        ("MIDDLE", "What stands between the title and the same as a heading."),
        ("REST", "What stands between the heading and the data."),
        ("TAIL", "What stands behind the data."),
    )
    told = [
        f'\n/// {what}\npub(crate) const {name}: &str = r{quote}"{text}"{quote};\n'
        for (name, what), text in zip(names, texts)
    ]
    return (
        "//! Written by assets/make_page.py of the files beside it; edit those, and run it with --write.\n"
        + "".join(told)
    )


def check():
    with open(CONSTANTS, encoding="utf-8") as file:
        same = file.read() == constants()
    print(f"player: {'1 passed, 0' if same else '0 passed, 1'} failed")
    return not same


def main():
    if sys.argv[1] == "--check":
        return check()
    if sys.argv[1] == "--write":
        with open(CONSTANTS, "w", encoding="utf-8") as file:
            file.write(constants())
        return 0
    head, middle, rest, tail = parts()
    title = titled(sys.argv[2] if len(sys.argv) > 2 else "Terminal recording")
    with open(sys.argv[1], encoding="utf-8") as file:
        sys.stdout.write(head + title + middle + title + rest + file.read() + tail)
    return 0


if __name__ == "__main__":
    sys.exit(main())
