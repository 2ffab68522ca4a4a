#!/usr/bin/env python3
"""Sees that the pages name what is there: files that docs/MAP.md lists, and links between the pages.

    tests/pages.py

A name such as `src/text.rt` or `specs/Text` in a part of the map that is headed by a crate is a file of that crate. The
last line is 'N passed, M failed'.
"""
import glob
import os
import re
import sys

TOP = os.path.join(os.path.dirname(os.path.abspath(__file__)), "..")


def read(path):
    with open(os.path.join(TOP, path), encoding="utf-8") as file:
        return file.read()


def is_there(*path):
    return os.path.exists(os.path.join(TOP, *path))


def files_of_the_map():
    """Each file that the map names under a crate's heading, and whether it is there."""
    for part in re.split(r"^## ", read("docs/MAP.md"), flags=re.M)[1:]:
        crate = part.split("\n")[0]
        if is_there("crates", crate):
            for name in re.findall(r"`((?:src|specs|proofs)/[\w/]+(?:\.rt)?)`", part):
                if not name.startswith("src/") or name.endswith(".rt"):
                    name += "" if name.endswith(".rt") else ".antt"
                    yield f"docs/MAP.md: {crate} {name}", is_there("crates", crate, name)


def anchor(heading):
    return re.sub(r"[^\w -]", "", heading.lower()).replace(" ", "-")


def links(page):
    """Each link of a page to another page, and whether page and heading are there."""
    for target in re.findall(r"\]\(([^)#:]*(?:#[\w-]+)?)\)", read(page)):
        path, _, wanted = target.partition("#")
        path = os.path.normpath(os.path.join(os.path.dirname(page), path)) if path else page
        headings = re.findall(r"^#+ (.*)", read(path), re.M) if is_there(path) else []
        yield f"{page}: {target}", is_there(path) and (not wanted or wanted in map(anchor, headings))


def main():
    passed = failed = 0
    pages = sorted(os.path.relpath(page, TOP) for page in glob.glob(f"{TOP}/*.md") + glob.glob(f"{TOP}/docs/*.md"))
    for name, holds in [*files_of_the_map(), *(link for page in pages for link in links(page))]:
        passed, failed = passed + holds, failed + (not holds)
        if not holds:
            print(f"FAILED {name} isn't there")
    print(f"pages: {passed} passed, {failed} failed")
    return failed > 0 or not passed


if __name__ == "__main__":
    sys.exit(main())
