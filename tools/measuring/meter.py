"""A program that is called and measured: machine instructions, the processor's time, the time by the clock, memory."""
import os
import re
import statistics
import subprocess
import tempfile
import time

from measuring.scenes import Scene

# How often what is timed is called: the best of some, and the median of more where workers share a run.
TRIES, TRIES_OF_WORKERS = 5, 21
# A run ends with the second of these where its budget is used.
DONE = (0, 10)
# How long the words and the environment of a process are moves its stack by steps of 16 bytes, and what clears or copies some hundred bytes there takes some
# machine instructions more or fewer by that. A second step is as none.
SHIFTS = (0, 16)


class Unmeasured(Exception):
    """Why a row can't be measured."""


def text_of(source):
    """What a program reads: a scenario, or bytes as they are."""
    return source.bytes() if isinstance(source, Scene) else source


def last_of(said):
    """The end of what was said, but for the lines of valgrind."""
    return " ".join(line for line in said.splitlines() if not line.startswith("==")).strip()[-200:]


class Meter:
    """A program, and the folder in which it is called."""

    def __init__(self, program, folder):
        self.program, self.folder = program, folder

    def write(self, name, content):
        """A file that the program finds."""
        with open(os.path.join(self.folder, name), "wb") as file:
            file.write(content)

    def call(self, words, source, before=(), statuses=DONE, shift=0):
        """Calls the program, behind other words where something is to watch it, and gives what was said on standard error. Its environment is longer by a
        shift."""
        every = [*before, self.program, *words]
        env = {**os.environ, "FLUKE_MEASURE": "-" * shift}
        ran = subprocess.run(every, cwd=self.folder, env=env, input=text_of(source), stdout=subprocess.DEVNULL, stderr=subprocess.PIPE, check=False)
        said = ran.stderr.decode(errors="replace")
        self.judge(words, ran.returncode, statuses, said)
        return said

    def judge(self, words, status, statuses, said=""):
        if status not in statuses:
            raise Unmeasured(f"fluke {' '.join(words)} ended with status {status}. {last_of(said)}".rstrip())

    def count(self, words, source, statuses=DONE, shift=0):
        """How many machine instructions a call takes."""
        said = self.call(words, source, ["valgrind", "--tool=callgrind", "--callgrind-out-file=/dev/null"], statuses, shift)
        return self.found(r"Collected : (\d+)", said)

    def evened(self, words, source):
        """The same, wherever its stack lies: the mean over its shifts."""
        return statistics.mean(self.count(words, source, shift=shift) for shift in SHIFTS)

    def found(self, pattern, said):
        """The number that is told of a call."""
        found = re.search(pattern, said)
        if found is None:
            raise Unmeasured(f"nothing is told of the call but: {last_of(said)}")
        return int(found[1].replace(",", ""))

    def times(self, words, source, statuses=DONE):
        """The processor's seconds of a call, and those by the clock."""
        with tempfile.TemporaryFile() as given:
            given.write(text_of(source))
            given.seek(0)
            begun = time.monotonic()
            ran = subprocess.Popen([self.program, *words], cwd=self.folder, stdin=given, stdout=subprocess.DEVNULL, stderr=subprocess.DEVNULL)
            try:
                _, status, used = os.wait4(ran.pid, 0)
            except BaseException:
                ran.kill()
                raise
            by_clock = time.monotonic() - begun
        ran.returncode = os.waitstatus_to_exitcode(status)
        self.judge(words, ran.returncode, statuses)
        return used.ru_utime + used.ru_stime, by_clock

    def best(self, words, source, statuses=DONE):
        """The processor's milliseconds of a call, the least of some."""
        text = text_of(source)
        return 1000 * min(self.times(words, text, statuses)[0] for _ in range(TRIES))

    def by_clock(self, words, source, tries):
        """The milliseconds of a call by the clock, the median of so many."""
        text = text_of(source)
        return 1000 * statistics.median(self.times(words, text)[1] for _ in range(tries))

    def asked(self, words, source):
        """The most memory that a call holds at once of what it has asked for, in MB."""
        said = self.call(words, source, ["valgrind", "--tool=dhat", "--dhat-out-file=/dev/null"])
        return self.found(r"At t-gmax: +([\d,]+) bytes", said) / 1_000_000

    def resident(self, words, source):
        """The most memory that a call has in its pages, in MB. The system reckons what the process was before it became the program among it: so a small
        command starts it, and not Python."""
        said = self.call(words, source, ["time", "-f", "resident %M"])
        return self.found(r"resident (\d+)", said) / 1_000
