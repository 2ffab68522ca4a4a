"""Makes the input of seek.sh, and times both sides on it."""
import os
import re
import subprocess
import sys
import time

from shared import figure, shipped, spent, write_recording

typetool, work, mib, libtty = sys.argv[1:]
size = int(mib) << 20
places = 2000
delay = 100  # microseconds between chunks


def moments(chunks):
    """Places all over, in microseconds, the same in each run."""
    x = 1
    for _ in range(places):
        x = (1103515245 * x + 12345) % 2**31
        yield x * chunks // 2**31 * delay


def seconds(micros):
    return f"{micros // 1000000}.{micros % 1000000:06}"


def request_file(requests):
    path = os.path.join(work, "requests")
    with open(path, "w") as file:
        file.writelines(line + "\n" for line in requests)
    return path


def run(words, requests):
    """The processor seconds of the fastest of three runs on these requests; their output is thrown away."""
    path = request_file(requests)
    return min(spent(words, path)[0] for _ in range(3))


def resident(words, requests):
    """The memory in MB of a run that waits: with requests for a reader of its answers, without any for the first."""
    stdin = open(request_file(requests)) if requests else subprocess.PIPE
    ran = subprocess.Popen(words, stdin=stdin, stdout=subprocess.PIPE)
    used = None
    while True:
        time.sleep(0.5)
        fields = open(f"/proc/{ran.pid}/stat").read().rsplit(")", 1)[1].split()
        if fields[0] == "S" and fields[11] == used:
            break
        used = fields[11]
    status = open(f"/proc/{ran.pid}/status").read()
    ran.kill()
    ran.wait()
    return int(re.search(r"VmRSS:\s+(\d+)", status)[1]) * 1024 / 1000000


script, timing = write_recording(work, "recording", shipped(size), 80, delay)
chunks = -(-size // 80)
end = f"screen {seconds(chunks * delay)}"
spread = [f"screen {seconds(moment)}" for moment in moments(chunks)]


def session(every):
    return [typetool, "session", "--every", str(every), script, timing]


# Opening alone; one seek without stored terminals, which is feeding one terminal; with them; the seeks; and as many
# prints of one place.
opened = run(session(100), ["info"])
fed = run(session(1000000), [end])
sought = run(session(100), [end])
all_over = run(session(100), [end] + spread)
printed = run(session(100), [end] + [end] * places)
beside = resident(session(100), [end] * places) - resident(session(100), ["info"] * places)
print(f"{mib} MiB in {chunks} chunks")
figure("first seek over feeding", (sought - opened) / (fed - opened), 1.15)
figure("a seek, in ms", 1000 * (all_over - printed) / places, 0.06)
figure("beside the recording, in MB", beside, 25)
if libtty:
    words = [libtty, script, timing]
    stdin = [str(moment) for moment in moments(chunks)]
    libtty_memory = resident(words, []) - size / 1000000
    loaded, libtty_all = spent(words, request_file([]))[0], spent(words, request_file(stdin))[0]
    print(f"libtty: a seek {1000 * (libtty_all - loaded) / places:.3f} ms, {libtty_memory:.0f} MB beside the recording")
