#!/usr/bin/env python3
"""Runs the lines of docs/ARCHIVE.md on an archive, and compares with asking one recording after another.

    tests/archive.py TYPETOOL [RECORDINGS]

The archive has so many recordings (2,000 if not given), random ones and shipped ones, some of them damaged, some in the
multi-stream format, under names with blanks, quotes and control characters. Which of them can be read is what the plain
reader says. Then come a folder that can't be read, a timing that is missing, a disk that is full.

sshd and Slurm are the real ones, on the loopback, under keys and configurations of their own in a temporary folder;
they are stopped by their process ids. The last line is 'N passed, M failed'.
"""
import concurrent.futures
import contextlib
import getpass
import glob
import os
import random
import re
import shutil
import signal
import socket
import subprocess
import sys
import tempfile
import time

import check_reader
import harm
import plain_reader
import random_recordings
import skip

TOP = os.path.join(os.path.dirname(os.path.abspath(__file__)), "..")
NAMES = ["one", "two words", "it's", 'a "quote"', "a\x1b[31mred", "$(x)", "{}", "semi;colon", "-dash", "ü", "50%", "*"]
# Where servers are.
SBIN = f"{os.environ['PATH']}:/usr/sbin:/sbin"
PATIENCE = 600
SSHD = """Port={ports[0]}
Port={ports[1]}
ListenAddress=127.0.0.1
HostKey={folder}/host
AuthorizedKeysFile={folder}/key.pub
PidFile={folder}/sshd.pid
StrictModes=no
UsePAM=no
MaxStartups=100
MaxSessions=100
SetEnv=PATH={path} HOME={home}
"""
SSH = """Host alpha
Port {ports[0]}
Host beta
Port {ports[1]}
Host *
HostName 127.0.0.1
IdentityFile {folder}/key
UserKnownHostsFile {folder}/known
StrictHostKeyChecking no
LogLevel ERROR
"""
SLURM = """ClusterName=archive
SlurmctldHost={host}(127.0.0.1)
AuthInfo=socket={folder}/munge.sock
SlurmUser={user}
SlurmdUser={user}
SlurmctldPort={ports[0]}
SlurmdPort={ports[1]}
StateSaveLocation={folder}/state
SlurmdSpoolDir={folder}/spool
SlurmctldPidFile={folder}/slurmctld.pid
SlurmdPidFile={folder}/slurmd.pid
SlurmctldLogFile={folder}/slurmctld.log
SlurmdLogFile={folder}/slurmd.log
ProctrackType=proctrack/pgid
TaskPlugin=task/none
SelectType=select/cons_tres
ReturnToService=2
JobAcctGatherType=jobacct_gather/none
MpiDefault=none
SchedulerParameters=sched_interval=1,batch_sched_delay=0
NodeName={host} NodeAddr=127.0.0.1 CPUs={cores} State=UNKNOWN
PartitionName=all Nodes=ALL Default=YES State=UP
"""
passed, failed = 0, 0


def check(name, got, wanted):
    global passed, failed
    if got == wanted:
        passed += 1
    else:
        failed += 1
        print(f"FAILED {name}: got {str(got)[:300]}, wanted {str(wanted)[:300]}", flush=True)


def read(path):
    with open(path, "rb") as file:
        return file.read()


def write(path, text, mode="wb"):
    with open(path, mode) as file:
        file.write(text)


def blocks():
    """The blocks of shell of the page."""
    with open(os.path.join(TOP, "docs", "ARCHIVE.md"), encoding="utf-8") as file:
        return re.findall(r"^```sh\n(.*?)^```$", file.read(), re.M | re.S)


BLOCKS = blocks()


def multi_stream(timing):
    return b"".join(b"O " + line + b"\n" for line in timing.splitlines())


def pairs(count):
    """So many pairs of files: random and shipped recordings, every tenth damaged, every fiftieth multi-stream."""
    whole = harm.recordings()
    for number in range(count):
        rng = random.Random(number)
        made = rng.choice(whole) if rng.random() < 0.02 else random_recordings.recording(rng)
        script, timing = plain_reader.files_of(made)
        if number % 10 == 3:
            script, timing = harm.harmed(rng, script, timing)
        elif number % 50 == 1:
            timing = multi_stream(timing)
        yield script, timing


class Archive:
    """A folder of recordings, and what is to be told of each: its lines, and its fault or None."""

    def __init__(self, place, program, count):
        self.place, self.top = place, os.path.join(place, "archive")
        self.program, self.told = program, {}
        for number, pair in enumerate(pairs(count)):
            folder = f"{number % 7} of seven" if number % 2 else "."
            name = f"./{NAMES[number % len(NAMES)]} {number}"
            name = f"./{folder}/{name[2:]}" if number % 2 else name
            os.makedirs(os.path.join(self.top, folder), exist_ok=True)
            for kind, text in zip(("script", "timing"), pair):
                write(os.path.join(self.top, f"{name}.{kind}"), text)
            fault = plain_reader.read(*pair)
            self.told[f"{name}.script"] = None if isinstance(fault, tuple) else f"typetool: {fault}"
        os.mkdir(os.path.join(place, "bin"))
        os.symlink(program, os.path.join(place, "bin", "typetool"))
        self.path = f"{place}/bin:{os.environ['PATH']}"
        self.env = {**os.environ, "PATH": self.path, "LC_ALL": "C.UTF-8", "HOME": place}

    def run(self, number, more=""):
        """Runs a block of the page behind the first one, and gives its status."""
        script = "\n".join([more, BLOCKS[0] if number else "", BLOCKS[number]])
        done = subprocess.run(
            ["bash", "-c", script], cwd=self.top, env=self.env, stdin=subprocess.DEVNULL, timeout=PATIENCE
        )
        return done.returncode

    def start(self, *words):
        """Starts a server, or asks one; gives what it writes."""
        env = {**self.env, "PATH": SBIN}
        return subprocess.run(words, env=env, check=True, stdout=subprocess.PIPE, timeout=PATIENCE).stdout

    def file(self, name):
        return read(os.path.join(self.place, name)).decode(errors="surrogateescape")

    def ask(self, name, *words):
        """What the program writes and tells of a recording, asked by itself."""
        pair = name, name.removesuffix("script") + "timing"
        done = subprocess.run([self.program, *words, *pair], cwd=self.top, capture_output=True, timeout=PATIENCE)
        return done.returncode, done.stdout.decode(errors="surrogateescape"), done.stderr.decode()

    def asked(self, *words):
        """The same of each recording in turn."""
        with concurrent.futures.ThreadPoolExecutor(os.cpu_count()) as pool:
            names = sorted(self.told)
            return dict(zip(names, pool.map(lambda name: self.ask(name, *words), names)))


def statuses(asked, *wanted):
    """The recordings that end with one of these statuses."""
    return {name for name, (status, _, _) in asked.items() if status in wanted}


def tagged(texts):
    """The lines of each recording behind its name and a tab."""
    return sorted(f"{name}\t{line}" for name, text in texts for line in text.split("\n")[:-1])


def lines_of(text):
    return sorted(text.split("\n")[:-1])


def faults_of(text):
    """What is told of recordings and is no hint and no note; engines may tell of the machine besides."""
    return sorted(line for line in lines_of(text) if "\ttypetool: " in line and not is_beside(line))


def is_beside(line):
    """Whether a line is told beside a fault."""
    return ": hint: " in line or ": note: " in line


def free_ports():
    """Two ports that nobody has."""
    with socket.socket() as one, socket.socket() as two:
        for held in (one, two):
            held.bind(("127.0.0.1", 0))
        return one.getsockname()[1], two.getsockname()[1]


def until(holds, what):
    """Waits until something holds."""
    end = time.monotonic() + 60
    while not holds():
        if time.monotonic() > end:
            raise TimeoutError(what)
        time.sleep(0.1)


def stop(folder, *names):
    """Ends servers by the process ids that they left, and waits until they are gone."""
    for name in names:
        if os.path.exists(os.path.join(folder, f"{name}.pid")):
            number = int(read(os.path.join(folder, f"{name}.pid")))
            os.kill(number, signal.SIGTERM)
            until(lambda: not os.path.exists(f"/proc/{number}"), f"the end of {name}")


@contextlib.contextmanager
def machines(archive):
    """Two machines, alpha and beta, which are one sshd on the loopback with two ports."""
    folder, wrapper = os.path.join(archive.place, "ssh"), os.path.join(archive.place, "bin", "ssh")
    # As root sshd wants this folder, which its service makes elsewhere.
    made = os.getuid() == 0 and not os.path.exists("/run/sshd")
    os.mkdir(folder, 0o700)
    try:
        if made:
            os.mkdir("/run/sshd", 0o755)
        for name in ("host", "key"):
            subprocess.run(["ssh-keygen", "-q", "-t", "ed25519", "-N", "", "-f", f"{folder}/{name}"], check=True)
        ports = free_ports()
        # With a home of its own no shell finds what it would read at its start.
        options = SSHD.format(folder=folder, ports=ports, path=f"{archive.place}/bin:/usr/bin:/bin", home=archive.place)
        words = [word for option in options.splitlines() for word in ("-o", option)]
        archive.start(shutil.which("sshd", path=SBIN), "-f", "/dev/null", "-E", f"{folder}/log", *words)
        write(f"{folder}/config", SSH.format(folder=folder, ports=ports), "w")
        write(wrapper, f'#!/bin/sh\nexec /usr/bin/ssh -F {folder}/config "$@"\n', "w")
        os.chmod(wrapper, 0o755)
        until(lambda: os.path.exists(f"{folder}/sshd.pid"), "sshd")
        yield
    finally:
        stop(folder, "sshd")
        if os.path.exists(wrapper):
            os.remove(wrapper)
        if made:
            os.rmdir("/run/sshd")


@contextlib.contextmanager
def cluster(archive):
    """A cluster of this machine alone, with keys, state and logs in a temporary folder."""
    folder, config = os.path.join(archive.place, "slurm"), os.path.join(archive.place, "slurm", "slurm.conf")
    for name in ("state", "spool"):
        os.makedirs(os.path.join(folder, name))
    names = {"host": socket.gethostname().split(".")[0], "folder": folder, "user": getpass.getuser()}
    write(config, SLURM.format(ports=free_ports(), cores=os.cpu_count(), **names), "w")
    # slurmd wants control groups, and here uses none.
    write(f"{folder}/cgroup.conf", f"CgroupPlugin=cgroup/v1\nCgroupMountpoint={folder}/state\n", "w")
    write(f"{folder}/key", os.urandom(1024))
    os.chmod(f"{folder}/key", 0o600)
    files = {"key-file": "key", "socket": "munge.sock", "pid-file": "munged.pid", "log-file": "munged.log"}
    archive.env["SLURM_CONF"] = config
    try:
        archive.start("munged", "--force", *(f"--{flag}={folder}/{file}" for flag, file in files.items()))
        archive.start("slurmctld", "-f", config)
        archive.start("slurmd", "-f", config)
        until(lambda: b"idle" in archive.start("sinfo", "--noheader", "--format=%T"), "an idle node")
        yield
    finally:
        stop(folder, "slurmd", "slurmctld", "munged")


def expected(archive, asked):
    """The lines that are to be found, the faults that are to be told, and how many recordings can't be read."""
    found = tagged((name, out) for name, (_, out, _) in asked.items())
    faults = tagged((name, f"{fault}\n") for name, fault in archive.told.items() if fault)
    return found, faults, len(faults)


def compare(archive, name, status, asked):
    """What came out, joined, and what was told."""
    found, faults, unread = expected(archive, asked)
    check(f"{name}: status", status, min(unread, 101))
    check(f"{name}: what was found", lines_of(archive.file("found")), found)
    check(f"{name}: what was told", faults_of(archive.file("told")), faults)


def try_list(archive):
    check("the list: status", archive.run(0), 0)
    check("the list", sorted(archive.file("list").split("\0")[:-1]), sorted(archive.told))


def try_xargs(archive, asked):
    check("xargs: status", archive.run(1), 123)
    names = [name for name, (_, out, _) in asked.items() if out]
    check("xargs: found", sorted(archive.file("found").split("\0")[:-1]), sorted(names))
    unread = sorted(f"unread: {name}" for name, fault in archive.told.items() if fault)
    check("xargs: told", lines_of(archive.file("told")), unread)


def try_parallel(archive, asked):
    compare(archive, "parallel", archive.run(2), asked)
    logged = [int(line.split("\t")[6]) for line in archive.file("log").splitlines()[1:]]
    check("parallel: log", sorted(logged), sorted(int(status == 3) for status, _, _ in asked.values()))


def try_resumed(archive, asked):
    """Half of the recordings that couldn't be read are brought again, whole."""
    unread = sorted(name for name, fault in archive.told.items() if fault)
    whole = harm.recordings()[0]
    for name in unread[::2]:
        for kind, text in zip(("script", "timing"), plain_reader.files_of(whole)):
            write(os.path.join(archive.top, name.removesuffix("script") + kind), text)
        archive.told[name] = None
        asked[name] = archive.ask(name, "find", "err")
    compare(archive, "parallel resumed", archive.run(3), asked)
    check("parallel resumed: log", len(archive.file("log").splitlines()), 1 + len(asked) + len(unread))


def try_table(archive):
    asked = archive.asked("info")
    rows = {name: " ".join(out.splitlines()) + "\n" for name, (status, out, _) in asked.items() if not status}
    check("a table: status", archive.run(4), min(len(asked) - len(rows), 101))
    told = [line for line in lines_of(archive.file("table")) if not line.endswith("\t")]
    check("a table", told, tagged(rows.items()))


def try_transcripts(archive):
    asked = archive.asked("transcript")
    rows = {name: enumerate(out.split("\n")[:-1], 1) for name, (_, out, _) in asked.items()}
    found = {name: "".join(f"{number}:{row}\n" for number, row in told if "err" in row) for name, told in rows.items()}
    check("transcripts: status", archive.run(5), min(sum(map(bool, archive.told.values())), 101))
    check("transcripts: what was found", lines_of(archive.file("found")), tagged(found.items()))


def told_profile(archive, name):
    """The profile by which docs/COMMANDS.md says that the first line of a typescript is played."""
    term = check_reader.value(b"TERM", read(os.path.join(archive.top, name)).split(b"\n")[0]) or b""
    kind = term.split(b"-")[0]
    return {b"vt102": "vt102", b"vt100": "vt100", b"vt52": "vt100"}.get(kind, "xterm")


def try_wrong(program):
    """A folder that can't be read, a timing that is missing, a full disk: each is told by name, and so is the rest."""
    with tempfile.TemporaryDirectory(prefix="archive-") as place:
        archive = Archive(place, program, 60)
        lost = next(name for name, fault in archive.told.items() if not fault and name.startswith("./1 of seven/"))
        os.remove(os.path.join(archive.top, lost.removesuffix("script") + "timing"))
        archive.told[lost] = f"typetool: cannot open {lost.removesuffix('script')}timing"
        asked = archive.asked("find", "err")
        archive.run(0)
        compare(archive, "a timing that is missing", archive.run(2), asked)
        for number, engine, mark in ((1, "xargs", "unread: "), (2, "parallel", "\ttypetool: ")):
            os.symlink("/dev/full", os.path.join(place, "full"))
            os.replace(os.path.join(place, "full"), os.path.join(place, "found"))
            status = archive.run(number, f"exec 2>{place}/errors")
            check(f"a full disk: {engine}", archive.file("errors"), "tee: ../found: No space left on device\n")
            check(f"a full disk: the status of {engine}", status != 0, True)
            told = [line for line in lines_of(archive.file("told")) if mark in line and not is_beside(line)]
            check(f"a full disk: {engine} asks all", len(told), expected(archive, asked)[2])
            os.remove(os.path.join(place, "found"))
        compare(archive, "room again", archive.run(2), asked)
        mixed = {name: archive.ask(name, "find", "--profile", told_profile(archive, name), "err") for name in asked}
        compare(archive, "recordings of many terminals", archive.run(6), mixed)
        try_locked(archive, "3 of seven")


def try_locked(archive, folder):
    """Root reads every folder, so somebody else asks."""
    os.chmod(os.path.join(archive.top, folder), 0)
    os.chmod(archive.place, 0o777)
    os.remove(os.path.join(archive.place, "list"))
    nobody = "setpriv --reuid=65534 --regid=65534 --clear-groups" if os.getuid() == 0 else ""
    words = [*nobody.split(), "bash", "-c", BLOCKS[0]]
    done = subprocess.run(words, cwd=archive.top, env=archive.env, capture_output=True, timeout=PATIENCE)
    os.chmod(os.path.join(archive.top, folder), 0o755)
    told = f"find: \u2018./{folder}\u2019: Permission denied\n"
    check("a folder that can't be read", (done.returncode, done.stderr.decode()), (1, told))
    rest = sorted(name for name in archive.told if not name.startswith(f"./{folder}/"))
    check("the rest is listed", sorted(archive.file("list").split("\0")[:-1]), rest)


def main():
    program = os.path.abspath(sys.argv[1])
    count = int(sys.argv[2]) if len(sys.argv) > 2 else 2000
    with tempfile.TemporaryDirectory(prefix="archive-") as place:
        archive = Archive(place, program, count)
        asked = archive.asked("find", "err")
        plain = {name: fault for name, fault in archive.told.items() if fault}
        told = {name: errors.splitlines()[0] for name, (status, _, errors) in asked.items() if status == 3}
        check("what can't be read", told, plain)
        check("where it stands", {name for name, (_, out, _) in asked.items() if out}, statuses(asked, 0))
        check("where it doesn't", {name for name, (_, out, _) in asked.items() if not out}, statuses(asked, 1, 3))
        try_list(archive)
        try_xargs(archive, asked)
        if not skip.lacks("parallel", "asking by GNU parallel, on machines and on a cluster"):
            try_parallel(archive, asked)
            try_resumed(archive, asked)
            try_table(archive)
            try_transcripts(archive)
            try_wrong(program)
            try_elsewhere(archive, asked)
    return skip.end(passed, failed)


def try_elsewhere(archive, asked):
    """By ssh, and by Slurm."""
    if shutil.which("sshd", path=SBIN) is None:
        skip.skip("asking on several machines", "openssh-server")
    else:
        with machines(archive):
            compare(archive, "machines", archive.run(7), asked)
            hosts = {line.split("\t")[1] for line in archive.file("log").splitlines()[1:]}
            check("machines: who was asked", hosts, {"alpha", "beta"})
    missing = [name for name in ("munged", "slurmctld", "slurmd", "sbatch") if shutil.which(name, path=SBIN) is None]
    if missing:
        skip.skip("asking on a cluster", " and ".join(missing))
        return
    with cluster(archive):
        status = archive.run(8)
    for name in ("found", "told"):
        texts = [read(path) for path in sorted(glob.glob(f"{archive.place}/{name}-*"))]
        check(f"a cluster: tasks that {name}", len(texts), 8)
        write(os.path.join(archive.place, name), b"".join(texts))
    found, faults, _ = expected(archive, asked)
    check("a cluster: what was found", lines_of(archive.file("found")), found)
    check("a cluster: what was told", faults_of(archive.file("told")), faults)
    check("a cluster: status", status != 0, True)


if __name__ == "__main__":
    sys.exit(main())
