"""How a script says that it lacks a tool; skip.sh is the same for shell.

Each such line begins with `skipped: `, and the script ends with status 77 where nothing failed: tests/run.py gathers
them.
"""
import os
import shutil
import sys

STATUS = 77
skipped = 0


def skip(what, tool):
    """Tells that something is skipped for want of a tool."""
    global skipped
    skipped += 1
    print(f"skipped: {os.path.basename(sys.argv[0])}: {what}, for want of {tool}", flush=True)


def lacks(tool, what):
    """Whether there is no such command; then something is skipped."""
    if shutil.which(tool):
        return False
    skip(what, tool)
    return True


def end(passed, failed):
    """A script's last line and its status."""
    print(f"{os.path.basename(sys.argv[0])}: {passed} passed, {failed} failed" + f", {skipped} skipped" * (skipped > 0))
    return 1 if failed or not passed + skipped else STATUS if skipped else 0
