"""Makes the inputs of today.sh, times both sides on them, and counts their instructions."""
import os
import subprocess
import sys

from feed import APP, FLOOD, PLAIN, RUNS
from instructions import counted
from shared import TOP, figure, repeated, spent, write_recording

# Lines of wide characters, of accents and of drawn lines, one of them behind every fourth line of the log.
MIXED = (
    "端末の記録は、いつでも何が見えていたかを答える。",
    "终端在任何时刻显示什么，都可以从记录中得知。",
    "기록은 그때 화면에 무엇이 있었는지 말해 준다.",
    "│ Überlänge · naïve façade · Ελληνικά · кириллица │",
    "╭────────────┬────────────╮  ✓ done  → next",
)


def coloured(size):
    """This repository's log with its changes in colour, and text of other scripts in it."""
    words = ["git", "-C", TOP, "log", "--reverse", "-p", "--color=always"]
    with subprocess.Popen(words, stdout=subprocess.PIPE) as git:
        log = git.stdout.read(4 << 20)
        git.kill()
    lines = []
    for number, line in enumerate(log.split(b"\n")):
        lines.append(line)
        if number % 4 == 3:
            lines.append(b"\x1b[3%dm%s\x1b[m" % (number // 4 % 7 + 1, MIXED[number // 4 % len(MIXED)].encode()))
    return repeated(b"\r\n".join(lines) + b"\r\n", size)


COLOUR = ("log in colour", coloured, 4096)


def main(typetool, libvterm_feed, work, mib):
    for (name, text, chunk), goal in ((APP, 0.20), (PLAIN, 0.06), (FLOOD, 0.06), (COLOUR, 0.25)):
        ours_take = [typetool, "screen", "--profile", "xterm", "--size", "80x24", "--at", "1000000000000"]
        script, timing = write_recording(work, name.split()[0], text(int(mib) << 20), chunk)
        ours = theirs = float("inf")
        for _ in range(RUNS):
            ours = min(ours, spent([*ours_take, script, timing])[0])
            theirs = min(theirs, spent([libvterm_feed, script, timing, "utf8"])[0])
        figure(f"{name} over libvterm", ours / theirs, goal, f"({ours:.2f} over {theirs:.2f} s, {mib} MiB)")
        script, timing = write_recording(work, name.split()[0], text(4 << 20), chunk)
        ours, theirs = counted([*ours_take, script, timing]), counted([libvterm_feed, script, timing, "utf8"])
        print(f"  {ours:,} over {theirs:,} instructions on 4 MiB: {ours / theirs:.4g}", flush=True)
        os.remove(script)
        os.remove(timing)


if __name__ == "__main__":
    main(*sys.argv[1:])
