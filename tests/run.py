#!/usr/bin/env python3
"""Runs test scripts, and counts them.

    tests/run.py COMMAND.. [-- COMMAND..]..

A COMMAND is one word, as 'tests/cast.py bin/typetool'. Up to a `--` as many run side by side as there are processors,
and what a script prints comes whole where it ends; one that stands alone prints as it goes. A script fails by its
status; with 77 it lacked a tool and skipped what needs it, as its lines `skipped: ..` say (skip.sh, skip.py). The
others run all the same, but what stands behind a `--` isn't begun where something before it failed. Above the last line
stands what was skipped for want of what, and what failed; the last line is 'N passed, M failed, K skipped'.
"""
import concurrent.futures
import os
import shlex
import subprocess
import sys
import time

from skip import STATUS

TOP = os.path.join(os.path.dirname(os.path.abspath(__file__)), "..")


def show(line):
    sys.stdout.buffer.write(line)
    sys.stdout.flush()


def run(command, give):
    """Runs a script, gives each line that it prints, and returns its status, its lines about what was skipped, and how
    many seconds it took."""
    start, skips = time.monotonic(), []
    try:
        script = subprocess.Popen(shlex.split(command), cwd=TOP, stdout=subprocess.PIPE, stderr=subprocess.STDOUT)
    except OSError:
        return 127, skips, 0.0
    with script:
        for line in script.stdout:
            give(line)
            if line.startswith(b"skipped: "):
                skips.append(line.decode(errors="replace").rstrip("\n"))
    return script.returncode, skips, time.monotonic() - start


def run_part(commands):
    """Runs these side by side; tells of each as it ends, and returns what it ended with, in their order."""
    if len(commands) == 1:
        ended = run(commands[0], show)
        tell(commands[0], ended)
        return [ended]
    told = [[] for _ in commands]
    with concurrent.futures.ThreadPoolExecutor(os.cpu_count()) as pool:
        runs = {pool.submit(run, command, told[n].append): n for n, command in enumerate(commands)}
        for done in concurrent.futures.as_completed(runs):
            show(b"".join(told[runs[done]]))
            tell(commands[runs[done]], done.result())
    return [done.result() for done in runs]


def how(ended):
    status, skips, _ = ended
    return "passed" if status == 0 else "skipped" if status == STATUS and skips else "failed"


def tell(command, ended):
    print(f"-- {command}: {how(ended)}, {ended[2]:.1f} s", flush=True)


def parts_of(words):
    """The commands between each `--` and the next."""
    part = []
    for word in [*words, "--"]:
        if word == "--":
            yield part
            part = []
        else:
            part.append(word)


def main(words):
    counts, told, failed = {"passed": 0, "failed": 0, "skipped": 0}, [], []
    for part in parts_of(words):
        if failed:
            failed += [f"not begun: {command}" for command in part]
            continue
        for command, ended in zip(part, run_part(part)):
            counts[how(ended)] += 1
            told += ended[1]
            if how(ended) == "failed":
                failed.append(f"FAILED {command}: status {ended[0]}")
    for line in told + failed:
        print(line)
    print(", ".join(f"{count} {name}" for name, count in counts.items()))
    return counts["failed"] > 0


if __name__ == "__main__":
    sys.exit(main(sys.argv[1:]))
