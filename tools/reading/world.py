"""The world: objects in slots of spaces, pages, what leads where, who is held.

A pointer is nothing, or the object to which it leads; one to an object that is gone is dead. So a pointer follows its object wherever that
is renamed, and dies with it.
"""
MUTEX, COND, MAPPING, REGION, PORT, PORTSET, SPACE, THREAD, REFERENCE = range(1, 10)
KIND_OF = {"mutex": MUTEX, "cond": COND, "mapping": MAPPING, "region": REGION, "port": PORT, "portset": PORTSET, "space": SPACE,
           "thread": THREAD, "reference": REFERENCE}
RUNNING, CALLING, HALTED, NATIVE = range(4)
CLIENT, SERVER = 1, 2

PAGE = 64
PAGES = 256
MAPPINGS = 16
PORTER = 255
SCRATCH = range(240, 255)
MOVED = 65535


class Peer:
    """Who stands in a talk or a fault in place of a thread."""

    def __init__(self, name):
        self.name = name


# The native server of the port, and nobody yet.
SERVICE, PARKED = Peer("service"), Peer("parked")


class Thing:
    """An object: where it lies, and whether it is gone. The root lies nowhere."""
    kind = 0
    # Names of what leads somewhere, by number of the field.
    fields = ()

    def __init__(self):
        self.home, self.slot, self.gone = None, None, False

    def path(self):
        """Slots from the root on."""
        out, thing = [], self
        while thing.home is not None:
            out.append(thing.slot)
            thing = thing.home
        return tuple(reversed(out))

    def pointer(self, field):
        """Where a field leads: nothing, an object, or a peer that is no thread."""
        return getattr(self, self.fields[field])


# What leads to an object that was destroyed before this reading began.
DEAD = Thing()
DEAD.gone = True


class Mutex(Thing):
    """Locked or not."""
    kind = MUTEX

    def __init__(self):
        super().__init__()
        self.locked = False


class Cond(Thing):
    """A condition; who sleeps there is seen by registers alone."""
    kind = COND


class Portset(Thing):
    """A port set; its ports know it."""
    kind = PORTSET


class Mapping(Thing):
    """Pages that are those of a region."""
    kind = MAPPING
    fields = ("region",)

    def __init__(self):
        super().__init__()
        self.first, self.count, self.offset, self.write, self.region = 0, 1, 0, False, None


class Region(Thing):
    """Pages that mappings may show, and which a keeper keeps."""
    kind = REGION
    fields = ("keeper",)

    def __init__(self):
        super().__init__()
        self.first, self.count, self.write, self.keeper = 0, 1, False, None


class Port(Thing):
    """A port, its set, and its native server."""
    kind = PORT

    def __init__(self):
        super().__init__()
        self.member, self.served = None, None

    @property
    def set(self):
        """The port set, if it is still there."""
        return self.member if self.member is not None and not self.member.gone else None


class Reference(Thing):
    """Leads to a mapping, a region, a port, a thread or a space."""
    kind = REFERENCE
    fields = ("to",)

    def __init__(self):
        super().__init__()
        self.to = None


class Space(Thing):
    """Slots and pages."""
    kind = SPACE
    fields = ("holder",)

    def __init__(self, birth):
        super().__init__()
        self.birth, self.keeps, self.slots, self.pages = birth, None, {}, {}

    @property
    def holder(self):
        """The thread that holds it, if that is still there."""
        return self.keeps if self.keeps is not None and not self.keeps.gone else None


class Talk:
    """A client's talk: the port, the peer, whose turn it is, and how many words were moved in it."""

    def __init__(self, port, peer, turn, moved):
        self.port, self.peer, self.turn, self.moved = port, peer, turn, moved


class Fault:
    """A page that a thread misses, the port of its keeper, and who has taken it: nobody, a thread, or one that is parked."""

    def __init__(self, page, write, port, taker):
        self.page, self.write, self.port, self.taker = page, write, port, taker


class Thread(Thing):
    """Registers, counter, mode, stops, a talk as a client, a fault."""
    kind = THREAD
    fields = ("talks_at", "talks_to", "faults_at", "faults_to")

    def __init__(self):
        super().__init__()
        self.registers, self.counter, self.mode, self.code, self.stops = [0] * 16, 0, RUNNING, 0, 0
        self.talk, self.fault = None, None
        # The thread whose talk it serves, and the one whose fault it has taken.
        self.client, self.faulting = None, None

    @property
    def talks_at(self):
        """The port of its talk."""
        return self.talk.port if self.talk else None

    @property
    def talks_to(self):
        """The peer of its talk."""
        return self.talk.peer if self.talk else None

    @property
    def faults_at(self):
        """The port of its fault."""
        return self.fault.port if self.fault else None

    @property
    def faults_to(self):
        """The taker of its fault."""
        return self.fault.taker if self.fault else None


CLASSES = {MUTEX: Mutex, COND: Cond, MAPPING: Mapping, REGION: Region, PORT: Port, PORTSET: Portset, THREAD: Thread, REFERENCE: Reference}


class World:
    """All spaces by birth number."""

    def __init__(self):
        self.root = Space(0)
        self.spaces, self.next_birth = {0: self.root}, 1
        self.threads = {}

    def at(self, birth, slot):
        """What stands in a slot of the space with a birth number."""
        space = self.spaces.get(birth)
        return space.slots.get(slot) if space is not None else None

    def make(self, space, slot, kind):
        """A new object."""
        if kind == SPACE:
            thing = Space(self.next_birth)
            self.spaces[self.next_birth] = thing
            self.next_birth += 1
        else:
            thing = CLASSES[kind]()
        thing.home, thing.slot = space, slot
        space.slots[slot] = thing
        if kind == THREAD:
            self.threads[thing] = None
        return thing

    def rename(self, thing, slot):
        """Another slot of its space."""
        del thing.home.slots[thing.slot]
        thing.home.slots[slot] = thing
        thing.slot = slot

    def remove(self, thing):
        """It is gone; what led to it is dead."""
        del thing.home.slots[thing.slot]
        thing.gone = True
        if thing.kind == SPACE:
            del self.spaces[thing.birth]
        if thing.kind == THREAD:
            del self.threads[thing]

    def walk(self, top=None):
        """An object and all in it, by slots, each before what lies in it."""
        stack = [top or self.root]
        while stack:
            thing = stack.pop()
            yield thing
            if thing.kind == SPACE:
                stack.extend(thing.slots[slot] for slot in sorted(thing.slots, reverse=True))

    def pointing(self, thing):
        """The objects that have a pointer to an object; ports also to their set."""
        for space in self.spaces.values():
            for other in space.slots.values():
                if other.kind == PORT:
                    if other.member is thing:
                        yield other
                elif any(other.pointer(field) is thing for field in range(len(other.fields))):
                    yield other

    def is_held(self, thing):
        """Whether a space in which it lies is held."""
        space = thing.home
        while space is not None:
            if space.holder is not None:
                return True
            space = space.home
        return False

    def decider(self, thing):
        """Who decides over an object: the outermost holder; nobody where it isn't frozen."""
        found = None
        space = thing if thing.kind == SPACE else thing.home
        while space is not None:
            found = space.holder or found
            space = space.home
        return found

    def is_frozen(self, me, thing):
        """Whether it is frozen for a mover. A native server decides nowhere, and is nobody."""
        decider = self.decider(thing)
        return decider is not None and decider is not me

    def is_free(self, thread):
        """Whether a thread can move at all."""
        if thread.mode == NATIVE:
            return not self.is_held(thread)
        return thread.mode in (RUNNING, CALLING) and thread.stops == 0 and thread.fault is None and not self.is_held(thread)

    def is_above(self, space, thing):
        """Whether an object lies in a space, at any depth, or is it."""
        while thing is not None:
            if thing is space:
                return True
            thing = thing.home
        return False


class Reached:
    """Where an address leads: a page that is there, or one that is missing, with its keeper. Nothing stands for a bad one."""

    def __init__(self, space, page, there, keeper):
        self.space, self.page, self.there, self.keeper = space, page, there, keeper

    def words(self):
        """The words of the page."""
        return self.space.pages[self.page]


def covering(space, kind, page):
    """The mapping or region in the lowest slot that holds a page."""
    found = None
    for thing in space.slots.values():
        if thing.kind == kind and thing.first <= page < thing.first + thing.count and (found is None or thing.slot < found.slot):
            found = thing
    return found


def reach(space, page, write):
    """The page that is seen at a page of a space; nothing where it is bad."""
    followed = 0
    while page not in space.pages:
        mapping = covering(space, MAPPING, page)
        if mapping is None:
            region = covering(space, REGION, page)
            keeper = region.keeper if region is not None else None
            return Reached(space, page, False, keeper if keeper is not None and not keeper.gone else None)
        region = mapping.region
        if followed == MAPPINGS or region is None or region.gone:
            return None
        place = mapping.offset + page - mapping.first
        if place >= region.count or write and not (mapping.write and region.write):
            return None
        space, page = region.home, region.first + place
        followed += 1
    return Reached(space, page, True, None)


def address(space, at, write):
    """The page of an address, and the place there; nothing where it is bad."""
    if at >= PAGE * PAGES:
        return None, 0
    return reach(space, at // PAGE, write), at % PAGE
