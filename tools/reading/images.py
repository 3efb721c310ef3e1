"""Images of subtrees: reading, with the offset and the reason of the first fault, and writing.

Reasons 1 to 5 are found from left to right, then 7, then 6 in order of offsets, then 8.
"""
from . import calls
from .world import CALLING, COND, HALTED, MAPPING, MUTEX, PAGE, PORT, PORTSET, REFERENCE, REGION, SPACE, THREAD

MAGIC = b"FLUKEIMG"
VERSIONS = (1, 2)
NO_MAGIC, NO_VERSION, CUT, NO_ORDER, OUT_OF_RANGE, LEADS_NOWHERE, LEFT_OVER, NO_REFERENCES = range(1, 9)
NULL, DEAD, IN, OUT, ROOT, OUTSIDE = range(6)
NO_PARENT = 0xFFFFFFFF
SLOTS = 240
TOLD = (MAPPING, REGION, PORT, THREAD, SPACE)


class BadImage(Exception):
    """The first fault."""

    def __init__(self, offset, reason):
        super().__init__(offset, reason)
        self.offset, self.reason = offset, reason


class Link:
    """A pointer: its tag, the space's number and the slot where it has them, and the offset of its tag."""

    def __init__(self, tag=NULL, space=None, slot=None, offset=None):
        self.tag, self.space, self.slot, self.offset = tag, space, slot, offset

    def place(self):
        """The space's number and the slot to which it leads within the image."""
        return (self.space, self.slot) if self.tag == IN else None


class Record:
    """An object: its slot, its kind, its numbers and its links by name."""

    def __init__(self, slot, kind, **fields):
        self.slot, self.kind = slot, kind
        self.talk, self.fault = None, None
        self.__dict__.update(fields)


class Inner:
    """A space: where it lies, its holder, its objects by slot, its pages by number."""

    def __init__(self, parent, slot, holder, objects, pages):
        self.parent, self.slot, self.holder, self.objects, self.pages = parent, slot, holder, objects, pages


class Image:
    """The spaces, in preorder."""

    def __init__(self, spaces):
        self.spaces = spaces

    def version(self):
        """2 where a thread calls to send or to get a reference."""
        return 1 + any(record.kind == THREAD and record.mode == CALLING and record.registers[0] in calls.WITH_REFERENCES
                       for space in self.spaces for record in space.objects.values())

    def links(self):
        """All pointers."""
        for space in self.spaces:
            yield space.holder
            for each in space.objects.values():
                yield from links_of(each)

    def outs(self):
        """The slots of the nester that something leads to, rising."""
        return sorted({link.slot for link in self.links() if link.tag == OUT})


def links_of(record):
    """The pointers of an object."""
    out = [getattr(record, name) for name in ("region", "keeper", "to") if hasattr(record, name)]
    if record.talk is not None:
        out += [record.talk.port, record.talk.server]
    if record.fault is not None:
        out += [record.fault.port] + ([record.fault.taker] if record.fault.taker is not None else [])
    return out


class Tie:
    """A talk or a fault of a thread."""

    def __init__(self, **fields):
        self.__dict__.update(fields)

    def peer(self):
        """Its server or taker."""
        return self.__dict__.get("server", self.__dict__.get("taker"))


class Reader:
    """A place in the bytes."""

    def __init__(self, octets):
        self.octets, self.at, self.version = octets, 0, None
        self.spaces = []
        # The open path: numbers of the spaces from the first to the last that was read, in their order.
        self.open = {}
        # The last slot given to a space, by the number of the space in which it lies.
        self.last = {}
        # Where fields stand, each with its width: registers and counters; numbers of pages and their words.
        self.plain, self.paged = [], []

    def number(self, width):
        """The next field."""
        begin = self.at
        if begin + width > len(self.octets):
            raise BadImage(begin, CUT)
        self.at = begin + width
        return int.from_bytes(self.octets[begin:self.at], "little")

    def below(self, width, end, begin=0):
        """The next field, which has a range."""
        at = self.at
        value = self.number(width)
        if not begin <= value < end:
            raise BadImage(at, OUT_OF_RANGE)
        return value

    def link(self):
        """A pointer."""
        at = self.at
        tag = self.below(1, 6)
        if tag == IN:
            space = self.number(4)
            return Link(tag, space, self.below(1, SLOTS), at)
        if tag == OUT:
            return Link(tag, None, self.below(1, SLOTS), at)
        return Link(tag, offset=at)

    def image(self):
        """All of it."""
        magic = self.number(8).to_bytes(8, "little")
        if magic != MAGIC:
            raise BadImage(0, NO_MAGIC)
        self.version = self.number(2)
        if self.version not in VERSIONS:
            raise BadImage(8, NO_VERSION)
        for index in range(self.below(4, 1 << 32, 1)):
            self.spaces.append(self.space(index))
        if self.at != len(self.octets):
            raise BadImage(self.at, LEFT_OVER)
        Looked(self.spaces)
        image = Image(self.spaces)
        if image.version() != self.version:
            raise BadImage(8, NO_REFERENCES)
        return image

    def space(self, index):
        """A space."""
        if index == 0:
            for width, value in ((4, NO_PARENT), (1, 0), (1, NULL)):
                self.below(width, value + 1, value)
            parent, slot, holder = NO_PARENT, 0, Link(NULL, offset=19)
        else:
            parent, slot = self.placed()
            holder = self.link()
        self.open[index] = None
        objects, pages = {}, {}
        before = -1
        for _ in range(self.number(2)):
            at = self.at
            each = self.below(1, SLOTS)
            if each <= before:
                raise BadImage(at, NO_ORDER)
            objects[each] = self.object(each)
            before = each
        before = -1
        for _ in range(self.number(2)):
            at = self.at
            page = self.number(1)
            if page <= before:
                raise BadImage(at, NO_ORDER)
            self.paged += [(at, 1)] + [(at + 1 + 8 * word, 8) for word in range(PAGE)]
            pages[page] = [self.number(8) for _ in range(PAGE)]
            before = page
        return Inner(parent, slot, holder, objects, pages)

    def placed(self):
        """The parent and the slot of a space that isn't the first."""
        at = self.at
        parent = self.number(4)
        if parent not in self.open:
            raise BadImage(at, NO_ORDER)
        slot = self.below(1, SLOTS)
        if slot <= self.last.get(parent, -1) or slot in self.spaces[parent].objects:
            raise BadImage(at, NO_ORDER)
        self.last[parent] = slot
        while next(reversed(self.open)) != parent:
            self.open.popitem()
        return parent, slot

    def object(self, slot):
        """An object behind its slot."""
        at = self.at
        kind = self.number(1)
        if kind == MUTEX:
            return Record(slot, kind, locked=self.below(1, 2))
        if kind in (COND, PORTSET):
            return Record(slot, kind)
        if kind == MAPPING:
            first, count = self.pages()
            return Record(slot, kind, first=first, count=count, offset=self.number(1), write=self.below(1, 2), region=self.link())
        if kind == REGION:
            first, count = self.pages()
            return Record(slot, kind, first=first, count=count, write=self.below(1, 2), keeper=self.link())
        if kind == PORT:
            place = self.at
            return Record(slot, kind, member=self.below(2, SLOTS + 1), offset=place)
        if kind == THREAD:
            return self.thread(slot)
        if kind == REFERENCE:
            return Record(slot, kind, to=self.link())
        raise BadImage(at, OUT_OF_RANGE)

    def pages(self):
        """A first page and a count, which agree."""
        first = self.number(1)
        return first, self.below(2, 257 - first, 1)

    def thread(self, slot):
        """A thread."""
        self.plain.append((self.at, 17 * 8))
        registers = [self.number(8) for _ in range(16)]
        counter = self.number(8)
        at = self.at
        mode = self.below(1, 3)
        if mode == CALLING and (registers[0] not in calls.CODES or self.version == 1 and registers[0] in calls.WITH_REFERENCES):
            raise BadImage(at, OUT_OF_RANGE)
        code = self.below(1, 256 if mode == HALTED else 1)
        out = Record(slot, THREAD, registers=registers, counter=counter, mode=mode, code=code, stops=self.number(2))
        turn = self.below(1, 3)
        if turn:
            out.talk = Tie(turn=turn, moved=self.number(2), port=self.link(), server=self.link())
        state = self.below(1, 3)
        if state:
            out.fault = Tie(page=self.number(1), write=self.below(1, 2), port=self.link(), taker=self.link() if state == 2 else None)
        return out


class Looked:
    """A look at where everything leads, once all has been read."""

    def __init__(self, spaces):
        self.spaces = spaces
        self.inner = {(space.parent, space.slot): number for number, space in enumerate(spaces) if number}
        self.named = set()
        for number, space in enumerate(spaces):
            self.holder(number, space.holder)
            for record in space.objects.values():
                self.object(number, record)

    def kind(self, link):
        """The kind to which a pointer leads within the image."""
        place = link.place()
        if place is None or place[0] >= len(self.spaces):
            return None
        if place in self.inner:
            return SPACE
        record = self.spaces[place[0]].objects.get(place[1])
        return record.kind if record is not None else None

    def held(self, link, tags, *kinds):
        """A pointer that its field can hold."""
        if link.tag not in tags and not (link.tag == IN and self.kind(link) in kinds):
            raise BadImage(link.offset, LEADS_NOWHERE)

    def holder(self, number, link):
        """A holder doesn't live in or beneath its space."""
        self.held(link, (NULL,), THREAD)
        if link.tag == IN:
            above = link.space
            while above != NO_PARENT:
                if above == number:
                    raise BadImage(link.offset, LEADS_NOWHERE)
                above = self.spaces[above].parent

    def object(self, number, record):
        """An object of the space with a number."""
        if record.kind == MAPPING:
            self.held(record.region, (NULL, DEAD), REGION)
        elif record.kind == REGION:
            self.held(record.keeper, (NULL, DEAD, OUT), PORT)
        elif record.kind == REFERENCE:
            self.held(record.to, (NULL, DEAD, OUT, ROOT), *TOLD)
        elif record.kind == PORT and record.member:
            member = self.spaces[number].objects.get(record.member - 1)
            if member is None or member.kind != PORTSET:
                raise BadImage(record.offset, LEADS_NOWHERE)
        elif record.kind == THREAD:
            for tie in (record.talk, record.fault):
                if tie is not None:
                    self.tie(tie)

    def tie(self, tie):
        """A talk or a fault: its port, and who serves it or has taken it, once."""
        self.held(tie.port, (OUT,), PORT)
        peer = tie.peer()
        if peer is None:
            return
        self.held(peer, (OUTSIDE,), THREAD)
        if (peer.tag == OUTSIDE) != (tie.port.tag == OUT):
            raise BadImage(peer.offset, LEADS_NOWHERE)
        if peer.tag == IN:
            if peer.space != tie.port.space or peer.place() in self.named:
                raise BadImage(peer.offset, LEADS_NOWHERE)
            self.named.add(peer.place())


def read(octets):
    """The image of bytes. Raises BadImage."""
    return Reader(octets).image()


def write(image):
    """The bytes of an image."""
    out = [MAGIC, image.version().to_bytes(2, "little"), len(image.spaces).to_bytes(4, "little")]

    def put(width, *numbers):
        for number in numbers:
            out.append(int(number).to_bytes(width, "little"))

    def put_link(link):
        put(1, link.tag)
        if link.tag == IN:
            put(4, link.space)
        if link.tag in (IN, OUT):
            put(1, link.slot)

    for space in image.spaces:
        put(4, space.parent)
        put(1, space.slot)
        put_link(space.holder)
        put(2, len(space.objects))
        for record in space.objects.values():
            put(1, record.slot, record.kind)
            if record.kind == MUTEX:
                put(1, record.locked)
            elif record.kind in (MAPPING, REGION):
                put(1, record.first)
                put(2, record.count)
                if record.kind == MAPPING:
                    put(1, record.offset)
                put(1, record.write)
                put_link(record.region if record.kind == MAPPING else record.keeper)
            elif record.kind == PORT:
                put(2, record.member)
            elif record.kind == REFERENCE:
                put_link(record.to)
            elif record.kind == THREAD:
                put(8, *record.registers, record.counter)
                put(1, record.mode, record.code)
                put(2, record.stops)
                put(1, record.talk.turn if record.talk is not None else 0)
                if record.talk is not None:
                    put(2, record.talk.moved)
                    put_link(record.talk.port)
                    put_link(record.talk.server)
                fault = record.fault
                put(1, 0 if fault is None else 1 if fault.taker is None else 2)
                if fault is not None:
                    put(1, fault.page, fault.write)
                    put_link(fault.port)
                    if fault.taker is not None:
                        put_link(fault.taker)
        put(2, len(space.pages))
        for page, words in space.pages.items():
            put(1, page)
            put(8, *words)
    return b"".join(out)
