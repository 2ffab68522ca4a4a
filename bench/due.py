"""Times `due` at the end beside scriptreplay, for due.sh."""
import os
import sys

from feed import APP, PLAIN
from shared import figure, read, spent, write_recording

RUNS = 5
END = "1000000000000"


def main(typetool, work, mib):
    ours, theirs = (os.path.join(work, name) for name in ("ours", "theirs"))
    for (name, text, chunk), goal in ((APP, 0.25), (PLAIN, 1.4)):
        script, timing = write_recording(work, name.split()[0], text(int(mib) << 20), chunk)
        replay = ["scriptreplay", "--maxdelay", "0.00001", "--log-out", script, "--log-timing", timing]
        times = []
        for _ in range(RUNS):
            due = spent([typetool, "due", "--at", END, script, timing], out=ours)[0]
            times.append((due, spent(replay, out=theirs)[0]))
        if not read(theirs).startswith(read(ours)):
            sys.exit(f"typetool and scriptreplay write different bytes of {name}")
        due, replayed = map(min, zip(*times))
        figure(f"{name} over scriptreplay", due / replayed, goal, f"({due:.3f} over {replayed:.3f} s, {mib} MiB)")
        os.remove(script)
        os.remove(timing)


main(*sys.argv[1:])
