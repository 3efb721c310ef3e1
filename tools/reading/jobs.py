"""Checkpoints and restores: what they come to.

Which calls a job makes between its first move and its last is its own choice, so this reading doesn't say how many they are. It is told,
by a report, at which move a job ended, and judges all else: when it may begin, whether its subtree is closed, the image, what is made of
one, and who may move meanwhile. Where it isn't told and it would have to know, it raises `Untold`.
"""
import re

from . import calls, images, texts
from .world import (DEAD, MAPPING, MUTEX, PARKED, PORT, PORTER, REFERENCE, REGION, SCRATCH, SPACE, THREAD, Fault, Talk)

DONE, FOREIGN, GONE, NOIMAGE, OCCUPIED, NOPORT = "done", "foreign", "dead", "noimage", "occupied", "noport"
# By a last field of this number a place says that something outside leads there.
LED_TO = 15
LAST = re.compile(r"job \d+ \w+ (?:done|foreign \S+ \d+|noport (\d+)) \w+ \d+ release (\d+)")


class Untold(Exception):
    """What happens hangs on calls of a job that this reading isn't told."""


class Told:
    """What a report tells of a job: its last move, and the slot where it found no port."""

    def __init__(self, line):
        found = LAST.fullmatch(line)
        self.last = int(found[2]) if found else None
        self.port = int(found[1]) if found and found[1] else None


def of(scenario, named, shelf, told=None):
    """The jobs of a run, with the images of the shelf by name, and what a report told of each."""
    out = []
    for index, entry in enumerate(scenario.jobs):
        lines = [line for line in told or () if line.startswith(f"job {index} ")]
        job = (Checkpoint if entry.kind == "checkpoint" else Restore)(entry, named[entry.nester], Told(lines[0]) if lines else None)
        if entry.kind == "restore":
            job.maker = next((each for each in out if isinstance(each, Checkpoint) and each.name == entry.image), None)
            job.image = shelf.get(entry.image) if job.maker is None else None
        out.append(job)
    return out


class Job:
    """A job: who makes it, and how far it is."""

    kind = ""

    def __init__(self, entry, nester, told):
        self.nester, self.porter, self.at, self.slot, self.name, self.known = nester, nester.slots[PORTER], entry["at"], entry.slot, entry.image, told
        self.first, self.last, self.end, self.place, self.missing = None, None, None, None, set()

    @property
    def begun(self):
        """Whether it has made a move."""
        return self.first is not None

    def line(self):
        """What a report says of it."""
        word = f"{self.kind} {self.end}" if self.end is not None else "waiting"
        if self.end == FOREIGN:
            word += f" {texts.path(self.place[0])} {self.place[1]}"
        if self.end == NOPORT:
            word += f" {self.place}"
        if self.end in (DONE, FOREIGN, NOPORT):
            word += f" {self.begins} {self.first} release {self.last}"
        return word

    def is_half_built(self):
        """Whether threads may be there or not yet."""
        return False

    def refused(self):
        """Whether it was refused."""
        return self.end not in (None, DONE)

    def ends_alone(self):
        """Whether it ends without a move."""
        if self.begun or not self.nester.gone:
            return False
        self.end = GONE
        return True

    def deed(self, run):
        """What its next move does; nothing where it isn't ready."""
        if not run.world.is_free(self.porter):
            return None
        if not self.begun:
            first = calls.asked_by_porter(run.world, self.porter, *self.asks())
            return None if first is None else lambda: self.begin(run, first()[0])
        if self.known is None:
            raise Untold
        return lambda: self.go_on(run)

    def can_move(self, run):
        """Whether a move of it is ready: once it has begun, always where its porter is free and nothing outside its subtree is held."""
        if self.begun and run.world.is_free(self.porter):
            top = self.nester.slots[self.slot]
            if any(space.holder is not None and not run.world.is_above(top, space) for space in run.world.spaces.values()):
                raise Untold
            return True
        return self.deed(run) is not None

    def begin(self, run, status):
        """Its first move is made."""
        if status != calls.OK:
            self.end = self.barred
            return
        self.first = run.events
        self.take(run)

    def go_on(self, run):
        """One of the moves behind that, perhaps the last."""
        if run.events == self.known.last:
            self.last = run.events
            self.finish(run)


class Checkpoint(Job):
    """Saves a subtree as an image."""

    kind, begins, barred = "checkpoint", "hold", GONE

    def __init__(self, entry, nester, told):
        super().__init__(entry, nester, told)
        self.image = None

    def asks(self):
        """Its first call."""
        return 13, (calls.HERE, self.slot)

    def take(self, run):
        """The subtree as it is at the hold, and stays."""
        self.place = first_place(run.world, self.nester, self.slot)
        if self.place is None:
            self.image = picture(self.nester, self.slot)

    def finish(self, run):
        """The hold goes."""
        self.nester.slots[self.slot].keeps = None
        self.end = DONE if self.place is None else FOREIGN


class Restore(Job):
    """Makes a subtree of an image."""

    kind, begins, barred = "restore", "make", OCCUPIED

    def __init__(self, entry, nester, told):
        super().__init__(entry, nester, told)
        self.image, self.maker, self.bound, self.birth = None, None, dict(map(tuple, entry.bind)), None

    def asks(self):
        """Its first call."""
        return 65, (self.slot,)

    def ends_alone(self):
        """Whether it ends without a move: for want of an image before all else."""
        if not self.begun and self.maker is not None and self.maker.end != DONE:
            self.end = NOIMAGE
            return True
        return super().ends_alone()

    def begin(self, run, status):
        """Its first move is made."""
        self.image = self.image if self.maker is None else self.maker.image
        super().begin(run, status)

    def out(self, slot):
        """The slot of its nester to which a slot of the image's is bound."""
        return self.bound.get(slot, slot)

    def take(self, run):
        """The new space is there, and held."""
        self.birth = run.world.next_birth
        self.look()

    def look(self):
        """Notes in which slots there is no port now."""
        for slot in self.image.outs():
            there = self.nester.slots.get(self.out(slot))
            if there is None or there.kind != PORT:
                self.missing.add(slot)

    def go_on(self, run):
        """One of the moves behind its first."""
        self.look()
        super().go_on(run)

    def finish(self, run):
        """The subtree is there, or the space is gone again."""
        space = self.nester.slots[self.slot]
        inner = len(self.image.spaces) - 1
        if inner and run.world.next_birth != self.birth:
            # Somebody has made a space meanwhile, and which came first isn't told.
            raise Untold
        if self.known.port is None:
            build(run.world, self.nester, space, self.image, self.out)
            space.keeps = None
            self.end = DONE
            return
        # Which of several it finds first is its own choice; the slot that is told is the lowest that is bound there.
        alike = [slot for slot in self.image.outs() if self.out(slot) == self.out(self.known.port)]
        self.place = min((slot for slot in alike if slot in self.missing), default=None)
        run.world.next_birth += inner
        run.world.remove(space)
        self.end = NOPORT

    def is_half_built(self):
        """Whether threads of its subtree may be there or not yet."""
        threads = any(record.kind == THREAD for space in self.image.spaces for record in space.objects.values()) if self.image else False
        return self.begun and self.end is None and threads


# ----------------------------------------------------------------------------------------------------------------------- subtrees

def first_place(world, nester, slot):
    """The first place that keeps a subtree from being closed, by its path and its field; nothing where it is closed."""
    top = nester.slots[slot]
    for thing in world.walk(top):
        for field in (0, 2):
            if field < len(thing.fields) and thing is not top and not is_closed(world, nester, top, thing, field):
                return thing.path(), field
        if is_led_to(world, nester, top, thing):
            return thing.path(), LED_TO
    return None


def is_closed(world, nester, top, thing, field):
    """Whether a field of an object of a subtree leads where it may."""
    target = thing.pointer(field)
    if target is None or target.gone or target is not top and world.is_above(top, target):
        return True
    if thing.kind == REFERENCE and target is top:
        return True
    return thing.kind in (REGION, THREAD, REFERENCE) and target.kind == PORT and target.home is nester


def is_led_to(world, nester, top, thing):
    """Whether something outside leads to an object of a subtree; the scratch of who holds it doesn't count."""
    for other in world.pointing(thing):
        scratch = top.holder is not None and other.home is top.holder.home and other.slot in SCRATCH
        if not scratch and not world.is_above(top, other):
            return True
    return False


def picture(nester, slot):
    """The image of a closed subtree."""
    top = nester.slots[slot]
    numbers, spaces = {}, []

    def link(target):
        if target is None:
            return images.Link(images.NULL)
        if target.gone:
            return images.Link(images.DEAD)
        if target is top:
            return images.Link(images.ROOT)
        if target.home in numbers:
            return images.Link(images.IN, numbers[target.home], target.slot)
        return images.Link(images.OUT, slot=target.slot)

    def peer(port, target):
        return images.Link(images.OUTSIDE) if port.home is nester else link(target)

    stack = [top]
    order = []
    while stack:
        space = stack.pop()
        numbers[space] = len(order)
        order.append(space)
        stack += [space.slots[each] for each in sorted(space.slots, reverse=True) if space.slots[each].kind == SPACE]
    for space in order:
        objects = {each: recorded(space.slots[each], link, peer) for each in sorted(space.slots) if space.slots[each].kind != SPACE}
        pages = {page: list(space.pages[page]) for page in sorted(space.pages)}
        first = space is top
        spaces.append(images.Inner(images.NO_PARENT if first else numbers[space.home], 0 if first else space.slot,
                                   images.Link() if first else link(space.holder), objects, pages))
    return images.Image(spaces)


def recorded(thing, link, peer):
    """The record of an object in an image."""
    record = images.Record(thing.slot, thing.kind)
    if thing.kind == MUTEX:
        record.locked = int(thing.locked)
    elif thing.kind in (MAPPING, REGION):
        record.first, record.count, record.write = thing.first, thing.count, int(thing.write)
        if thing.kind == MAPPING:
            record.offset, record.region = thing.offset, link(thing.region)
        else:
            record.keeper = link(thing.keeper)
    elif thing.kind == PORT:
        record.member = thing.set.slot + 1 if thing.set else 0
    elif thing.kind == REFERENCE:
        record.to = link(thing.to)
    elif thing.kind == THREAD:
        record.registers, record.counter, record.mode, record.stops = list(thing.registers), thing.counter, thing.mode, thing.stops
        record.code = thing.code if thing.mode == images.HALTED else 0
        if thing.talk is not None:
            talk = thing.talk
            record.talk = images.Tie(turn=talk.turn, moved=talk.moved, port=link(talk.port), server=peer(talk.port, talk.peer))
        if thing.fault is not None:
            fault = thing.fault
            taker = peer(fault.port, fault.taker) if fault.taker is not None else None
            record.fault = images.Tie(page=fault.page, write=int(fault.write), port=link(fault.port), taker=taker)
    return record


def build(world, nester, top, image, out):
    """Makes all that an image has in an empty space; `out` says where what leads out is bound."""
    spaces = [top]
    for inner in image.spaces[1:]:
        spaces.append(world.make(spaces[inner.parent], inner.slot, SPACE))
    made = []
    for space, inner in zip(spaces, image.spaces):
        space.pages.update({page: list(words) for page, words in inner.pages.items()})
        made += [(world.make(space, record.slot, record.kind), record) for record in inner.objects.values()]

    def led(link):
        if link.tag == images.IN:
            return spaces[link.space].slots[link.slot]
        if link.tag == images.OUT:
            return nester.slots[out(link.slot)]
        return {images.NULL: None, images.DEAD: DEAD, images.ROOT: top, images.OUTSIDE: PARKED}[link.tag]

    for thing, record in made:
        fill(thing, record, led)
    for space, inner in zip(spaces[1:], image.spaces[1:]):
        space.keeps = led(inner.holder)


def fill(thing, record, led):
    """Sets an object by its record."""
    if thing.kind == MUTEX:
        thing.locked = record.locked == 1
    elif thing.kind in (MAPPING, REGION):
        thing.first, thing.count, thing.write = record.first, record.count, record.write == 1
        if thing.kind == MAPPING:
            thing.offset, thing.region = record.offset, led(record.region)
        else:
            thing.keeper = led(record.keeper)
    elif thing.kind == PORT:
        thing.member = thing.home.slots[record.member - 1] if record.member else None
    elif thing.kind == REFERENCE:
        thing.to = led(record.to)
    elif thing.kind == THREAD:
        thing.registers, thing.counter, thing.mode, thing.code, thing.stops = list(record.registers), record.counter, record.mode, record.code, record.stops
        if record.talk is not None:
            thing.talk = Talk(led(record.talk.port), led(record.talk.server), record.talk.turn, record.talk.moved)
            if thing.talk.peer is not PARKED:
                thing.talk.peer.client = thing
        if record.fault is not None:
            taker = led(record.fault.taker) if record.fault.taker is not None else None
            thing.fault = Fault(record.fault.page, record.fault.write == 1, led(record.fault.port), taker)
            if isinstance(taker, type(thing)):
                taker.faulting = thing
