"""The first world of a scenario, traces, plays and runs; and `exec`."""
import re

from . import jobs, moves, texts, words
from .servers import Replay, Server
from .world import KIND_OF, NATIVE, PAGE, PAGES, PORTER, THREAD, World

EXECUTED = 100000
HEAD = b"fluke-trace 1"
NAME = rb"(0|[1-9][0-9]{0,9})\.(0|[1-9][0-9]{0,2})"
LINE = re.compile(NAME + rb"(?: " + NAME + rb")?")


class BadTrace(Exception):
    """The index of the first bad line."""

    def __init__(self, index):
        super().__init__(index)
        self.index = index


def pages_of(program):
    """The pages of a program at address 0."""
    padded = program + [0] * (-len(program) % PAGE)
    return {at // PAGE: padded[at:at + PAGE] for at in range(0, len(padded), PAGE)}


class Run:
    """A scenario on its way: its world, its servers and jobs in the order of the file, how many moves were made."""

    def __init__(self, scenario, images=None, told=None, replies=None):
        self.budget, self.events = scenario.budget, 0
        self.world = World()
        self.servers = []
        self.named = {(): self.world.root}
        self.spaces(scenario)
        self.objects(scenario)
        for entry in scenario.servers:
            port = self.named[entry.port]
            server = self.server(port, entry, replies)
            port.served = server
            self.servers.append(server)
        self.jobs = jobs.of(scenario, self.named, images or {}, told)

    @staticmethod
    def server(port, entry, replies):
        """A native server; of those that are no consoles a replay of the next list of replies, where such are given."""
        if replies is None or entry.get("alias") is not None:
            return Server(port, entry.rule, entry.get("config", ()), entry.get("alias"))
        return Replay(port, replies.pop(0))

    def spaces(self, scenario):
        """The spaces, their pages and their porters."""
        for entry in scenario.spaces:
            if entry.path:
                self.named[entry.path] = self.world.make(self.named[entry.path[:-1]], entry.path[-1], KIND_OF["space"])
            space = self.named[entry.path]
            for page in entry.pages:
                space.pages[page] = [0] * PAGE
            if entry.program is not None:
                space.pages.update(pages_of(scenario.programs[entry.program]))
            if entry.nester:
                self.world.make(space, PORTER, THREAD).mode = NATIVE

    def objects(self, scenario):
        """The objects, and then where they lead."""
        for entry in scenario.objects:
            thing = self.world.make(self.named[entry.at[:-1]], entry.at[-1], KIND_OF[entry.kind])
            self.named[entry.at] = thing
            if entry.kind == "thread":
                thing.counter, thing.stops = entry.entry, entry.stops
                thing.registers[:len(entry.regs)] = entry.regs
            elif entry.kind == "mutex":
                thing.locked = entry.locked
            elif entry.kind in ("mapping", "region"):
                thing.first, thing.count, thing.write = entry.first, entry.count, entry.write
                if entry.kind == "mapping":
                    thing.offset = entry.offset
        for entry in scenario.objects:
            thing = self.named[entry.at]
            for key in ("region", "keeper", "to"):
                if entry.get(key) is not None:
                    setattr(thing, key, self.named[entry[key]])
            if entry.kind == "port" and entry.set is not None:
                thing.member = self.named[(*entry.at[:-1], entry.set)]

    def due(self):
        """The job whose turn it is."""
        for job in self.jobs:
            if job.end is None:
                return job if job.begun or self.events >= job.at or moves.is_quiet(self.world) else None
        return None

    def deed(self, mover, pick=None):
        """What a move does; nothing where it isn't ready."""
        if mover.kind == THREAD and mover.mode == NATIVE:
            job = self.due()
            if job is None or job.porter is not mover or pick is not None:
                return None
            return job.deed(self)
        return moves.deed(self.world, mover, pick)

    def turn(self, deed):
        """Makes a move, and ends the jobs that can end without one."""
        deed()
        self.events += 1
        job = self.due() if self.jobs else None
        while job is not None and job.ends_alone():
            job = self.due()

    def is_over(self):
        """Whether no move is ready."""
        if not moves.is_quiet(self.world):
            return False
        job = self.due()
        return job is None or not job.can_move(self)

    def end(self):
        """How it has ended, after the moves that were made."""
        if any(job.is_half_built() for job in self.jobs):
            raise jobs.Untold
        if not self.is_over():
            return texts.BUDGET if self.events >= self.budget else texts.LISTED
        return texts.HALTED_END if moves.has_halted(self.world) else texts.QUIET

    def report(self, end):
        """What is written."""
        return texts.report(self.events, end, self.jobs, self.servers, self.world)

    def outcome(self):
        """The report. Raises a fault with it where the budget was used, or a job refused."""
        end = self.end()
        output = self.report(end)
        if end == texts.BUDGET:
            raise texts.budget(self.budget, output)
        for index, job in enumerate(self.jobs):
            if job.refused():
                raise texts.job_refused(index, output)
        return output


def name_of(thing):
    """How a trace names a mover or a pick."""
    return f"{thing.home.birth}.{thing.slot}"


def line_of(mover, pick):
    """A move's line in a trace."""
    return name_of(mover) + (" " + name_of(pick) if pick is not None else "")


def trace_of(lines):
    """A whole trace."""
    return texts.ended([HEAD.decode(), *lines])


def play(run, trace):
    """Makes the moves of a trace. Raises BadTrace."""
    head, feed, rest = trace.partition(b"\n")
    if head != HEAD or not feed:
        raise BadTrace(0)
    lines = rest.split(b"\n")
    # What stands behind the last line feed is a bad line, if it is anything.
    last = lines.pop()
    for index, line in enumerate(lines):
        move(run, index, line)
    if last:
        raise BadTrace(len(lines))


def named_in(index, line):
    """The names in the line of a move."""
    spelled = LINE.fullmatch(line)
    if spelled is None:
        raise BadTrace(index)
    birth, slot, *pick = (int(part) for part in spelled.groups() if part is not None)
    named = [(birth, slot)] + ([tuple(pick)] if pick else [])
    if any(birth >= 1 << 32 or slot > 255 for birth, slot in named):
        raise BadTrace(index)
    return named


def spelled(trace):
    """Raises BadTrace with the index of the first line that is misspelled, whatever the moves are."""
    head, feed, rest = trace.partition(b"\n")
    if head != HEAD or not feed:
        raise BadTrace(0)
    lines = rest.split(b"\n")
    last = lines.pop()
    for index, line in enumerate(lines):
        named_in(index, line)
    if last:
        raise BadTrace(len(lines))


def move(run, index, line):
    """Makes the move of a line."""
    if index >= run.budget:
        raise BadTrace(index)
    named = named_in(index, line)
    things = [run.world.at(*name) for name in named]
    deed = run.deed(*things) if None not in things else None
    if deed is None:
        raise BadTrace(index)
    run.turn(deed)


def execute(program):
    """Runs a program as one thread that has all pages and no kernel: its halt code or nothing, its instructions and its registers."""
    memory = program + [0] * (PAGE * PAGES - len(program))
    registers, counter, events = [0] * 16, 0, 0
    while events < EXECUTED:
        asked = words.act(memory[counter], registers, counter) if counter < len(memory) else ("halt", words.BAD_ADDRESS)
        what = asked[0]
        events += 1
        if what == "go":
            _, register, value, counter = asked
            if register is not None:
                registers[register] = value
            continue
        if what == "halt":
            return asked[1], events, registers
        if what == "call":
            registers[0] = 1
        else:
            at = asked[1 if what == "store" else 2]
            if at >= len(memory):
                return words.BAD_ADDRESS, events, registers
            if what == "store":
                memory[at] = asked[2]
            else:
                registers[asked[1]] = memory[at]
        counter += 1
    return None, events, registers
