"""The commands that read a pair and write to standard output alone, as the help texts of tests/help tell them."""
import glob
import os
import re

HELP = os.path.join(os.path.dirname(os.path.abspath(__file__)), "help")
USAGE = re.compile(r"^Usage: typetool (\w+)(?: \[OPTIONS\])?(.*) <SCRIPT> \[TIMING\]$", re.MULTILINE)


def reading(seconds="1", text="a"):
    """The words of each such command without the pair: its name, and what must stand behind it."""
    for path in sorted(glob.glob(os.path.join(HELP, "*.txt"))):
        with open(path, encoding="utf-8") as file:
            usage = USAGE.search(file.read())
        if usage:
            values = {"<SECONDS>": seconds, "<TEXT>": text}
            yield [usage[1], *(values.get(word, word) for word in usage[2].split())]
