#!/usr/bin/env python3
"""Refuses the first, the second, .. growth of memory in every test of the modules `refused`, until none is refused.

    tests/refused.py [N..]

`rt try --test --fail-alloc N` refuses the Nth growth of each test. The test then compares what the call left with what
was there before, makes the call again with memory, and prints `refused: CALL`. With numbers these growths alone are
refused in turn. Prints how many refusals each test met; fails where a test fails or met none.
"""
import collections
import concurrent.futures
import itertools
import os
import re
import subprocess
import sys

top = os.path.join(os.path.dirname(os.path.abspath(__file__)), "..")
chosen = [int(number) for number in sys.argv[1:]]
workers = os.cpu_count() or 1
CRATES = [
    "vt_tests",
    "xterm_tests",
    "tape_tests",
    "session_tests",
    "check_tests",
    "import_tests",
    "seek_tests",
    "print_tests",
    "today_tests",
    "device_tests",
]


def refuse(crate, number):
    """Whether the crate's tests pass with this growth refused, how many refusals each met, and what was printed."""
    words = ["rt", "try", "--test", "--fail-alloc", str(number), "--", "refused::"]
    done = subprocess.run(
        words, cwd=f"{top}/crates/{crate}", text=True, stdout=subprocess.PIPE, stderr=subprocess.STDOUT
    )
    met, test = collections.Counter(), None
    for line in done.stdout.splitlines():
        begins = re.match(r"test (\S+) \.\.\. ", line)
        if begins:
            test = begins[1]
            met[test] = 0
        elif line.lstrip().startswith("refused: "):
            met[test] += 1
    return done.returncode == 0 and "test result: ok." in done.stdout, met, done.stdout


def batches():
    """The growths to refuse: all that were chosen, or as many at once as there are workers, endlessly."""
    if chosen:
        yield chosen
        return
    numbers = itertools.count(1)
    while batch := list(itertools.islice(numbers, workers)):
        yield batch


def try_crate(pool, crate):
    """Goes on until no test met a refusal, or all chosen growths were refused. Whether all passed and each met some."""
    counts = collections.Counter()
    for batch in batches():
        tried = list(zip(batch, pool.map(lambda number: refuse(crate, number), batch)))
        for number, (passed, met, said) in tried:
            if not passed:
                print(f"{crate}: growth {number} refused: FAILED\n{said}", flush=True)
                return False
            counts.update(met)
        if not chosen and not all(sum(met.values()) for _, (_, met, _) in tried):
            break
    for test, count in sorted(counts.items()):
        print(f"{crate}: {test}: {count} refused", flush=True)
    return bool(counts) and all(counts.values())


def main():
    """Tries all crates side by side, so that no worker is idle while another crate has runs left."""
    with (
        concurrent.futures.ThreadPoolExecutor(workers) as pool,
        concurrent.futures.ThreadPoolExecutor(len(CRATES)) as crates,
    ):
        tried = list(crates.map(lambda crate: try_crate(pool, crate), CRATES))
    if not all(tried):
        sys.exit("refused growths: a test failed, or met no refusal")


main()
