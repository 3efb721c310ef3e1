"""Images at random, sound ones and such as have any of the faults."""
from . import images
from .calls import CODES
from .world import HALTED


class Made:
    """An image from dice, mostly a sound one."""

    def __init__(self, dice):
        self.dice = dice
        self.fault = dice.choice((0, 0, 0, 0.02, 0.05))
        self.spaces = []
        self.space(images.NO_PARENT, 0, 0)
        for number, space in enumerate(self.spaces):
            for record in space.objects.values():
                self.lead(number, record)
            if number and dice.random() < 0.2:
                space.holder = self.link((images.NULL,), images.THREAD)
        self.image = images.Image(self.spaces)

    def space(self, parent, slot, depth):
        """A space and those in it."""
        dice, number = self.dice, len(self.spaces)
        slots = sorted(dice.sample(range(240), dice.choice((0, 1, 3, 6, 10))))
        within = dice.sample(slots, min(len(slots), dice.choice((0, 1, 2)))) if depth < 3 else []
        objects = {each: self.object(each) for each in slots if each not in within}
        numbers = sorted(dice.sample(range(256), dice.choice((0, 0, 0, 1, 2))))
        pages = {page: [dice.choice((0, 0, 7, dice.getrandbits(64))) for _ in range(64)] for page in numbers}
        self.spaces.append(images.Inner(parent, slot, images.Link(), objects, pages))
        for each in sorted(within):
            self.space(number, each, depth + 1)

    def number(self, least, most):
        """A number of a field; with a chance one more than it may be."""
        return most + 1 if self.dice.random() < self.fault else self.dice.choice((least, most, self.dice.randint(least, most)))

    def object(self, slot):
        """An object, which leads nowhere yet."""
        kind = self.dice.choice((1, 2, 3, 4, 5, 5, 6, 8, 8, 9, 9))
        record = images.Record(slot, kind)
        if kind == images.MUTEX:
            record.locked = self.number(0, 1)
        elif kind in (images.MAPPING, images.REGION):
            record.first = self.number(0, 254)
            record.count = self.number(1, 256 - record.first)
            record.offset, record.write = self.number(0, 254), self.number(0, 1)
        elif kind == images.PORT:
            record.member = 0
        elif kind == images.THREAD:
            mode = self.number(0, 2)
            record.registers = [self.dice.choice((0, 1, 5, self.dice.getrandbits(64))) for _ in range(16)]
            calls = mode == images.CALLING and self.dice.random() >= self.fault
            record.registers[0] = self.dice.choice(list(CODES)) if calls else self.number(0, 70)
            record.counter, record.mode = self.dice.choice((0, 7, self.dice.getrandbits(64))), mode
            record.code = self.number(0, 254) if mode == HALTED else int(self.dice.random() < self.fault)
            record.stops = self.dice.choice((0, 0, 1, 65535))
        return record

    def of_kind(self, *kinds):
        """Where objects of some kinds lie."""
        out = [(number, record.slot) for number, space in enumerate(self.spaces) for record in space.objects.values() if record.kind in kinds]
        if images.SPACE in kinds:
            out += [(space.parent, space.slot) for space in self.spaces[1:]]
        return out

    def link(self, tags, *kinds, within=None):
        """A pointer of one of some tags, or to an object of some kinds, perhaps of one space."""
        if self.dice.random() < self.fault:
            return images.Link(self.dice.randrange(7), self.dice.randrange(len(self.spaces) + 1), self.dice.choice((0, 1, 239, 240)))
        there = [place for place in self.of_kind(*kinds) if within is None or place[0] == within]
        if there and (not tags or self.dice.random() < 0.6):
            return images.Link(images.IN, *self.dice.choice(there))
        return images.Link(self.dice.choice(tags) if tags else images.NULL, None, self.dice.choice((0, 4, 9, 9, 11, 239)))

    def lead(self, number, record):
        """Where an object leads."""
        dice = self.dice
        if record.kind == images.MAPPING:
            record.region = self.link((images.NULL, images.DEAD), images.REGION)
        elif record.kind == images.REGION:
            record.keeper = self.link((images.NULL, images.DEAD, images.OUT), images.PORT)
        elif record.kind == images.REFERENCE:
            record.to = self.link((images.NULL, images.DEAD, images.OUT, images.ROOT), *images.TOLD)
        elif record.kind == images.PORT:
            sets = [each.slot for each in self.spaces[number].objects.values() if each.kind == images.PORTSET]
            if sets and dice.random() < 0.6 or dice.random() < self.fault:
                record.member = 1 + dice.choice(sets) if sets and dice.random() >= self.fault else self.number(0, 240)
        elif record.kind == images.THREAD:
            if dice.random() < 0.4:
                port, peer = self.tie()
                record.talk = images.Tie(turn=self.number(1, 2), moved=dice.choice((0, 1, 65535)), port=port, server=peer)
            if dice.random() < 0.3:
                port, peer = self.tie()
                record.fault = images.Tie(page=dice.randrange(256), write=self.number(0, 1), port=port, taker=peer if dice.random() < 0.6 else None)

    def tie(self):
        """A port, and who serves there."""
        port = self.link((images.OUT,), images.PORT)
        if port.tag != images.IN:
            return port, self.link((images.OUTSIDE,))
        return port, self.link((), images.THREAD, within=port.space) if self.dice.random() < 0.9 else self.link((images.OUTSIDE,), images.THREAD)


def image(dice):
    """The bytes of an image; of some a few are changed, cut off or put behind."""
    while True:
        try:
            octets = images.write(Made(dice).image)
            break
        except OverflowError:
            # A number that no field holds is no image: the dice fall again.
            continue
    choice = dice.random()
    if choice < 0.15:
        at = dice.randrange(len(octets))
        octets = octets[:at] + bytes([dice.choice((octets[at] ^ 1, octets[at] + 2 & 255, octets[at] ^ 255, dice.randrange(256)))]) + octets[at + 1:]
    elif choice < 0.2:
        octets = octets[:dice.randrange(len(octets))]
    elif choice < 0.25:
        octets += bytes(dice.randint(1, 3))
    return octets
