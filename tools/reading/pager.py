"""A run with a pager: which subtrees may be paged, what the pager does, and what `page` writes.

Who of several that are ready moves next is a run's own choice, and the number of faults may hang on it. Here the first in the order of the world moves, the
pager before others; a case is one of which all orders make the same.
"""
from . import calls, moves, texts
from .world import MAPPING, NATIVE, PAGES, PORT, PORTER, REGION, SPACE, THREAD

SEEKING, TAKING, WAITING, LOOKING, EVICTING, GIVING, ENDING = range(7)


def desk(run, slot):
    """The port and its set at which faults on the pages of the subtree in a slot are taken; nothing where it may not be paged."""
    world = run.world
    root = world.root
    porter, space = root.slots.get(PORTER), root.slots.get(slot)
    if run.jobs or porter is None or porter.kind != THREAD or porter.mode != NATIVE or space is None or space.kind != SPACE:
        return None
    things = list(world.walk())
    if any(thing.kind == MAPPING and thing.home is space for thing in things):
        return None
    regions = sorted((thing.slot, thing) for thing in things if thing.kind == REGION and thing.home is space)
    if not regions:
        return None
    region = regions[0][1]
    port = region.keeper
    if (region.first, region.count) != (0, PAGES) or port is None or port.home is not root or port.member is None:
        return None
    if any(thing.kind == PORT and thing.home is root and thing.member is port.member and thing is not port for thing in things):
        return None
    if any(thing.kind == REGION and thing.home is not space and thing.keeper is port for thing in things):
        return None
    return port


class Pager:
    """The porter of the root as a pager."""

    def __init__(self, run, slot, port, room):
        self.run, self.slot, self.port, self.room = run, slot, port, room
        self.porter = run.world.root.slots[PORTER]
        self.listed, self.inside, self.faults = {}, [], 0
        self.phase, self.page, self.old, self.held = SEEKING, 0, None, False

    def is_opening(self):
        """Whether it takes the pages that were home at first."""
        return self.phase in (SEEKING, TAKING)

    def asks(self):
        """Its call: the code, its arguments and the words that it gives."""
        if self.phase in (SEEKING, LOOKING):
            return 20, (self.slot, self.page), ()
        if self.phase == TAKING:
            return 18, (self.slot, self.page, 0), ()
        if self.phase == EVICTING:
            return 18, (self.slot, self.old, 0), ()
        if self.phase == GIVING:
            return 17, (self.slot, self.page, 0), self.listed[self.page]
        if self.phase == WAITING:
            return 48, (self.port.member.slot,), ()
        return 56, (), ()

    def picks(self):
        """Whom its call may pick: threads with a fault at its port on a page of its list; nobody where it doesn't wait."""
        if self.phase != WAITING:
            return [None]
        return [thread for thread in self.run.world.threads
                if thread.fault is not None and thread.fault.port is self.port and thread.fault.page in self.listed]

    def deed(self):
        """Its next move, as a function that answers; nothing where none is ready."""
        for pick in self.picks():
            code, arguments, given = self.asks()
            deed = calls.asked_by_porter(self.run.world, self.porter, code, arguments, given, pick)
            if deed is not None:
                return deed
        return None

    def move(self, deed):
        """Makes its move and hears the answer."""
        status, words = deed()
        self.held = status == calls.HELD
        self.hear(status, words)

    def hear(self, status, words):
        """What it becomes by an answer."""
        ok = status == calls.OK
        if self.phase == SEEKING:
            self.phase, self.page = (TAKING, words[0]) if ok else (WAITING, None)
        elif self.phase == TAKING and not self.held:
            if ok:
                self.listed[self.page] = list(words)
            self.phase, self.page = SEEKING, self.page + 1
        elif self.phase == WAITING and ok:
            self.phase, self.page = LOOKING, words[2]
        elif self.phase == LOOKING:
            self.look(ok and words[0] == self.page)
        elif self.phase == EVICTING and not self.held:
            if ok:
                self.listed[self.old] = list(words)
            del self.inside[0]
            self.phase = GIVING
        elif self.phase == GIVING and not self.held:
            if ok:
                self.inside.append(self.page)
            self.phase = ENDING
        elif self.phase == ENDING:
            self.faults += ok
            self.phase, self.page = WAITING, None

    def look(self, home):
        """Whether the page is home, and else whether there is room for it."""
        if home:
            self.phase = ENDING
        elif self.inside and len(self.inside) >= self.room:
            self.phase, self.old = EVICTING, self.inside[0]
        else:
            self.phase = GIVING


def other(run):
    """A ready move of a user or a native server."""
    for mover in moves.movers(run.world):
        for pick in moves.picked(run.world, mover):
            deed = moves.deed(run.world, mover, pick)
            if deed is not None:
                return deed
    return None


def paged(run, slot, room):
    """What `page` writes."""
    port = desk(run, slot)
    if port is None:
        raise texts.not_paged()
    pager, events = Pager(run, slot, port, room), 0
    while True:
        own = pager.deed()
        beside = None if pager.is_opening() or (own is not None and not pager.held) else other(run)
        if own is None and beside is None:
            end = texts.HALTED_END if moves.has_halted(run.world) else texts.QUIET
            break
        if events >= run.budget:
            end = texts.BUDGET
            break
        if beside is not None:
            beside()
            pager.held = False
        else:
            pager.move(own)
        events += 1
    lines = [f"page {slot} {room} faults {pager.faults} end {end}"]
    output = texts.ended(lines) + texts.outs(run.servers, run.world)
    if end == texts.BUDGET:
        raise texts.budget(run.budget, output)
    return output
