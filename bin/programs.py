"""What bin/build and bin/prove share: which crates a program is made of, which sources a kept program is built from, and where it lies.

A program is kept in out/ at the top, as NAME.proved-SUM or NAME.unproved-SUM. SUM is a checksum of all that it is built from: the files of its
crates and of those below, their lines in crates.txt, what HANDLES allows, and the kit. So no time of a file counts, and a program that was built
from other sources has another name and isn't taken. It is written under a name of its own and then renamed, so that no half of one is taken.
"""
import contextlib
import fcntl
import hashlib
import os
import pathlib
import shutil
import signal
import subprocess
import sys

TOP = pathlib.Path(__file__).resolve().parent.parent
OUT = TOP / "out"
PROVED, UNPROVED = "proved", "unproved"
# What a program is built from. Statements and proofs change nothing of what is compiled.
PARTS = {PROVED: ("src", "specs", "proofs"), UNPROVED: ("src",)}
# How many programs of one name are kept, built from one state of the sources each.
MOST_KEPT = 3
# The status of a script that can't do what it is for, with which no program ends.
REFUSED = 125


class Refused(Exception):
    """Why something can't be had, as a line for whoever asked for it."""


def say(text):
    print(text, file=sys.stderr, flush=True)


def refuse(what, fault):
    """Says why a script can't do what it is for, and gives its status."""
    if isinstance(fault, shutil.Error):
        # It lists the files of a folder that couldn't be copied: from where, to where, and why.
        fault = fault.args[0][0][2]
    say(f"{what}: {fault.filename or OUT}: {fault.strerror}" if isinstance(fault, OSError) and fault.strerror else f"{what}: {fault}")
    return REFUSED


def kit():
    """The folder of the toolchain."""
    command = shutil.which("rt")
    if command is None:
        raise Refused("the command rt of the Rattle kit isn't in PATH")
    folder = pathlib.Path(command).resolve().parent.parent
    if not (folder / "KIT-ID").is_file():
        raise Refused(f"{folder} is no Rattle kit: it has no KIT-ID")
    return folder


# Crates.


def read_crates(top=TOP):
    """Each crate of crates.txt with its line and the names that it stands on, those of the kit among them."""
    found = {}
    for line in (top / "crates.txt").read_text(encoding="utf-8").splitlines():
        words, colon, below = line.partition("#")[0].partition(":")
        if colon and words.split():
            found[words.split()[0]] = (line.partition("#")[0].strip(), below.split())
    return found


def crates_below(names, crates):
    """These crates and all of the repository that they stand on, lowest first."""
    found = {}

    def visit(name):
        if name in crates and name not in found:
            for below in crates[name][1]:
                visit(below)
            found[name] = None

    for name in names:
        visit(name)
    return list(found)


def is_program(name, top=TOP):
    return (top / "crates" / name / "src" / "main.rt").is_file()


def files_of(folder):
    """The files at and below a folder, in an order of their own."""
    for at, folders, names in os.walk(folder):
        folders.sort()
        yield from (os.path.join(at, name) for name in sorted(names))


def sum_of(name, kind, top=TOP):
    """The checksum of all that a program is built from."""
    crates = read_crates(top)
    handles = top / "HANDLES"
    digest = hashlib.sha256((kit() / "KIT-ID").read_bytes())
    digest.update(handles.read_bytes() if handles.is_file() else b"")
    for crate in crates_below([name], crates):
        digest.update(f"\n{crates[crate][0]}\n".encode())
        for part in PARTS[kind]:
            folder = os.path.join(top, "crates", crate, part)
            for path in files_of(folder):
                with open(path, "rb") as file:
                    text = file.read()
                digest.update(f"{part}{path[len(folder):]} {len(text)}\n".encode(errors="surrogateescape"))
                digest.update(text)
    return digest.hexdigest()[:24]


# Programs that are kept.


def kept(name, kind):
    """Where the program lies that is built from the sources as they stand, or None."""
    if not any(OUT.glob(f"{name}.{kind}-*")):
        return None
    path = OUT / f"{name}.{kind}-{sum_of(name, kind)}"
    return path if os.access(path, os.X_OK) else None


def is_proved(path):
    return f".{PROVED}-" in path.name


def best(name):
    """The proved program where there is one, else the unproved one where there is one, of the sources as they stand."""
    return kept(name, PROVED) or kept(name, UNPROVED)


def keep(name, kind, sum, made):
    """Keeps a program that was built, and removes those of this name that were kept longest ago. Who calls this holds the lock of its kind."""
    path, new = OUT / f"{name}.{kind}-{sum}", OUT / f"new-{name}.{kind}"
    try:
        with open(made, "rb") as source, open(new, "wb") as file:
            shutil.copyfileobj(source, file)
            # All of it lies on the disk before it has its name, whatever becomes of the machine.
            file.flush()
            os.fsync(file.fileno())
        os.chmod(new, 0o755)
        os.replace(new, path)
    finally:
        with contextlib.suppress(FileNotFoundError):
            new.unlink()
    others = sorted((it for it in OUT.glob(f"{name}.{kind}-*") if it != path), key=lambda it: it.stat().st_mtime)
    for old in others[: len(others) + 1 - MOST_KEPT]:
        with contextlib.suppress(FileNotFoundError):
            old.unlink()
    return path


@contextlib.contextmanager
def alone(name, what):
    """Waits until no other command of this clone builds the same, and keeps others waiting while this one does."""
    OUT.mkdir(exist_ok=True)
    with open(OUT / f"{what}.lock", "a", encoding="utf-8") as lock:
        try:
            fcntl.flock(lock, fcntl.LOCK_EX | fcntl.LOCK_NB)
        except BlockingIOError:
            say(f"{name}: another command builds it; waiting for that")
            fcntl.flock(lock, fcntl.LOCK_EX)
        yield


@contextlib.contextmanager
def room(what):
    """An empty folder to build in, which goes at the end. It lies outside of the repository, in which the gate refuses sources and links that are no crate's:
    in TMPDIR, or in /var/tmp, since what is built may be more than memory holds. What a command that was cut off has left there goes too; who calls this
    holds a lock."""
    own = hashlib.sha256(f"{os.geteuid()} {TOP}".encode(errors="surrogateescape")).hexdigest()[:12]
    folder = pathlib.Path(os.environ.get("TMPDIR") or "/var/tmp", f"fluke-{own}-{what}").absolute()
    shutil.rmtree(folder, ignore_errors=True)
    folder.mkdir(0o700)
    try:
        yield folder
    finally:
        shutil.rmtree(folder, ignore_errors=True)


class Group:
    """Starts commands that end with this one, however it ends."""

    def __enter__(self):
        for number in (signal.SIGTERM, signal.SIGHUP, signal.SIGINT):
            if signal.getsignal(number) != signal.SIG_IGN:
                signal.signal(number, lambda number, _: sys.exit(128 + number))
        end_of_group, self.own_end = os.pipe()
        # The read returns once this process is gone, and its end of the pipe with it.
        guard, nothing = ["sh", "-c", "read _; kill -9 0"], subprocess.DEVNULL
        self.guard = subprocess.Popen(guard, stdin=end_of_group, stdout=nothing, stderr=nothing, preexec_fn=os.setpgrp)
        os.close(end_of_group)
        return self

    def start(self, words, **how):
        join = lambda: os.setpgid(0, self.guard.pid)
        return subprocess.Popen([str(word) for word in words], stdin=subprocess.DEVNULL, preexec_fn=join, **how)

    def call(self, words, **how):
        """The status of a command, and all that it said."""
        ran = self.start(words, stdout=subprocess.PIPE, stderr=subprocess.STDOUT, text=True, errors="replace", **how)
        said = ran.communicate()[0]
        return ran.returncode, said

    def __exit__(self, *_):
        with contextlib.suppress(ProcessLookupError):
            os.killpg(self.guard.pid, signal.SIGKILL)
        self.guard.wait()
        os.close(self.own_end)


# How long a proof takes.

# What a crate's proof takes of a processor, in seconds: to begin with, for each KB of its code, of its proofs, and of the code below it. By the
# table of docs/PROOFS.md, within a third for a family of crates; machines differ by twice.
TO_BEGIN, OF_CODE, OF_PROOFS, OF_BELOW = 15, 2.1, 0.08, 0.042
# The memory for which a proof is counted on to run beside others, in KB.
MEMORY = 3_000_000


def kilobytes(crate, part):
    return sum(os.stat(path).st_size for path in files_of(TOP / "crates" / crate / part)) / 1000


def costs_of(names, crates):
    """The processor seconds that the proofs of these programs and of all below are likely to take, by crate, lowest first."""
    code = {crate: kilobytes(crate, "src") for crate in crates_below(names, crates)}
    costs = {}
    for crate in code:
        below = sum(code[it] for it in crates_below([crate], crates)) - code[crate]
        costs[crate] = TO_BEGIN + OF_CODE * code[crate] + OF_PROOFS * kilobytes(crate, "proofs") + OF_BELOW * below
    return costs


def lanes():
    """How many proofs run side by side here."""
    processors = len(os.sched_getaffinity(0))
    with open("/proc/meminfo", encoding="ascii") as file:
        free = next((int(line.split()[1]) for line in file if line.startswith("MemAvailable:")), MEMORY)
    return max(1, min(processors, free // MEMORY))


def seconds_for(costs, crates, number):
    """How long these crates take in so many lanes, where each waits for those below it and what has most to wait for it comes first."""
    behind = dict(costs)
    for crate in reversed(costs):
        for below in crates[crate][1]:
            if below in costs:
                behind[below] = max(behind[below], costs[below] + behind[crate])
    left, running, ended, now = sorted(costs, key=lambda it: -behind[it]), [], set(), 0.0
    while left or running:
        ready = [it for it in left if all(below in ended or below not in costs for below in crates[it][1])]
        for crate in ready[: number - len(running)]:
            left.remove(crate)
            running.append((now + costs[crate], crate))
        running.sort()
        now, crate = running.pop(0)
        ended.add(crate)
    return now


def counted(number, noun):
    return f"{number} {noun}{'s' * (number != 1)}"


def minutes(seconds, least=1):
    return counted(max(least, round(seconds / 60)), "minute")


def time_to_prove(name):
    """How long a proof of this program takes by the processors that are here, where no proof is kept."""
    crates, number = read_crates(), lanes()
    seconds = seconds_for(costs_of([name], crates), crates, number)
    return f"in about {minutes(seconds)} on {counted(number, 'processor')}"


def left_on_disk(*folders):
    """How many MB can still be written where there are fewest."""
    return min(found.f_bavail * found.f_frsize >> 20 for found in map(os.statvfs, folders))
