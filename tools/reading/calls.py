"""What each stage of a call checks, when it is ready, and what it does.

A stage is a function of the call that is asked for. It raises `Refused` with a status, or `Waits`; else it gives a `Deed`: the objects that
it would change, lead to or lead away from, which must not be frozen for the caller, and the doing. What is done with the caller's call
afterwards, the next stage or an end with OK, is said by the deed's answers.
"""
from . import words
from .world import (CALLING, CLIENT, COND, HALTED, MAPPING, MOVED, MUTEX, NATIVE, PAGE, PAGES, PARKED, PORT, PORTSET, REFERENCE,
                    REGION, RUNNING, SCRATCH, SERVER, SERVICE, SPACE, THREAD, Fault, Talk, address)

(OK, BADCALL, BADHANDLE, WRONGKIND, OCCUPIED, DEAD_REFERENCE, NULLREF, NOTLOCKED, NOTSTOPPED, HELD, NOTLINKED, LINKED, BADADDRESS, DENIED,
 ENDED, FULL, NONE, NOTEMPTY, WRONGTURN, BADSTATE) = range(20)

HERE = 256
ZEROS = words.ALL
RECORD = 32
STOPS = 65535
LEADING = (MAPPING, REGION, PORT, THREAD, SPACE)


class Refused(Exception):
    """The stage is refused."""

    def __init__(self, status):
        super().__init__(status)
        self.status = status


class Waits(Exception):
    """The stage isn't ready."""


class Faults(Exception):
    """The caller's own address misses a page that somebody keeps."""

    def __init__(self, page, write, keeper):
        super().__init__(page, write, keeper)
        self.page, self.write, self.keeper = page, write, keeper


class Deed:
    """What a stage would do. `answers` end the stage with OK; nothing leaves the call as the doing has left it."""

    def __init__(self, touched, doing, answers=()):
        self.touched, self.doing, self.answers = touched, doing, answers


class Asked:
    """A stage that is asked for: by whom, with which arguments, with which words by a porter, and whom it picks."""

    def __init__(self, world, me, arguments, given=(), pick=None):
        self.world, self.me, self.arguments, self.given, self.pick = world, me, arguments, given, pick
        self.porter = me.mode == NATIVE

    def top(self):
        """The highest slot that the caller may name."""
        return 255 if self.porter else 239

    def resident(self, space, slot, *kinds):
        """What stands in a slot of a space, of one of some kinds, or of any."""
        thing = space.slots.get(slot) if slot <= self.top() else None
        if thing is None:
            raise Refused(BADHANDLE)
        if kinds and thing.kind not in kinds:
            raise Refused(WRONGKIND)
        return thing

    def own(self, slot, *kinds):
        """What stands in a slot of the caller's space."""
        return self.resident(self.me.home, slot, *kinds)

    def led(self, reference, *kinds):
        """Where a reference leads."""
        if reference.to is None:
            raise Refused(NULLREF)
        if reference.to.gone:
            raise Refused(DEAD_REFERENCE)
        if reference.to.kind not in kinds:
            raise Refused(WRONGKIND)
        return reference.to

    def handle(self, slot, kind):
        """An object of a kind in a slot of the caller's space, or one to which a reference there leads."""
        thing = self.own(slot, kind, REFERENCE)
        return thing if thing.kind == kind else self.led(thing, kind)

    def place(self, slot):
        """A space: the caller's own, or one by a handle."""
        return self.me.home if slot == HERE else self.handle(slot, SPACE)

    def unheld(self, thing):
        """HELD for what is frozen for the caller."""
        if self.world.is_frozen(self.me, thing):
            raise Refused(HELD)

    def memory(self, at, write):
        """The page of the caller's own address, and the place there."""
        found, place = address(self.me.home, at, write)
        if found is None:
            raise Refused(BADADDRESS)
        if not found.there:
            if found.keeper is None:
                raise Refused(BADADDRESS)
            raise Faults(found.page, write, found.keeper)
        return found, place


def nothing():
    """A doing that changes nothing but the caller's call."""


# ------------------------------------------------------------------------------------------------------------------------------ objects

def create(asked):
    """A new object in an empty slot."""
    s, x, kind = asked.arguments
    space = asked.place(s)
    if x > asked.top():
        raise Refused(BADHANDLE)
    asked.unheld(space)
    if not 1 <= kind <= 9:
        raise Refused(WRONGKIND)
    if x in space.slots:
        raise Refused(OCCUPIED)

    def doing():
        made = asked.world.make(space, x, kind)
        if kind == THREAD:
            made.stops = 1
    return Deed((), doing)


def first_leaf(thing):
    """The first object in it that has nothing in it: residents before their space, by slot."""
    while thing.kind == SPACE and thing.slots:
        thing = thing.slots[min(thing.slots)]
    return thing


def touched_by_death(world, thing):
    """Whom the death of an object without residents changes, and where what it changes led."""
    out = list(world.pointing(thing))
    out += [thing.pointer(field) for field in range(len(thing.fields))]
    if thing.kind == PORT:
        for other in list(out):
            if other is not None and other.kind == THREAD:
                out += [other.talks_to if other.talks_at is thing else None, other.faults_to if other.faults_at is thing else None]
    if thing.kind == THREAD and thing.client is not None:
        out.append(thing.client.talks_at)
    return out


def kill(world, thing):
    """Destroys an object without residents."""
    if thing.kind == THREAD:
        if thing.talk is not None:
            end_talk(thing)
        if thing.client is not None:
            end_talk(thing.client)
        if thing.faulting is not None:
            thing.faulting.fault.taker = None
            thing.faulting = None
        if thing.fault is not None:
            drop_fault(thing)
    if thing.kind == PORT:
        for thread in list(world.threads):
            if thread.talks_at is thing:
                end_talk(thread)
            if thread.faults_at is thing:
                drop_fault(thread)
    world.remove(thing)


def drop_fault(thread):
    """The fault of a thread is gone."""
    if isinstance(thread.fault.taker, type(thread)):
        thread.fault.taker.faulting = None
    thread.fault = None


def end_call(thread, status):
    """A user's whole call ends with a status."""
    thread.registers[0] = status
    thread.counter = thread.counter + 1 & words.ALL
    thread.mode = RUNNING


def end_talk(client):
    """A talk ends. The ends of it that stand at a stage of it end their call; a native server hears of it."""
    talk, client.talk = client.talk, None
    if stands(client, CLIENT, *OF_A_TALK):
        end_call(client, ENDED)
    if talk.peer is SERVICE:
        talk.port.served.ended()
    elif talk.peer is not PARKED:
        talk.peer.client = None
        if stands(talk.peer, SERVER, *OF_A_TALK):
            end_call(talk.peer, ENDED)


def destroy(asked):
    """The first object of what is named, and it itself at last."""
    s, x = asked.arguments
    thing = asked.resident(asked.place(s), x)
    asked.unheld(thing)
    if asked.world.is_above(thing, asked.me.home):
        raise Refused(DENIED)
    leaf = first_leaf(thing)
    asked.unheld(leaf)
    return Deed(touched_by_death(asked.world, leaf), lambda: kill(asked.world, leaf), () if leaf is thing else None)


def rename(asked):
    """Another slot of the same space."""
    s, x, y = asked.arguments
    space = asked.place(s)
    thing = asked.resident(space, x)
    asked.unheld(thing)
    if y > 239:
        raise Refused(BADHANDLE)
    if thing.kind == PORT and thing.served is not None:
        raise Refused(DENIED)
    if y in space.slots:
        raise Refused(OCCUPIED)
    if thing.kind == SPACE and thing.slots:
        raise Refused(NOTEMPTY)
    return Deed(list(asked.world.pointing(thing)), lambda: asked.world.rename(thing, y))


def search(asked):
    """The first taken slot from a number on, and its kind."""
    s, start = asked.arguments
    space = asked.place(s)
    found = [slot for slot in space.slots if start <= slot <= asked.top()]
    if not found:
        raise Refused(NONE)
    return Deed((), nothing, (min(found), space.slots[min(found)].kind))


def lead(asked, reference, target, answers=()):
    """A reference leads elsewhere."""
    def doing():
        reference.to = target
    return Deed((reference, reference.to, target), doing, answers)


def point(asked):
    """A reference leads to an object, or where another leads."""
    s, x, s2, x2 = asked.arguments
    reference = asked.resident(asked.place(s), x, REFERENCE)
    target = asked.resident(asked.place(s2), x2, REFERENCE, *LEADING)
    asked.unheld(reference)
    return lead(asked, reference, target.to if target.kind == REFERENCE else target)


def clear(asked):
    """A reference leads nowhere."""
    s, x = asked.arguments
    reference = asked.resident(asked.place(s), x, REFERENCE)
    asked.unheld(reference)
    return lead(asked, reference, None)


def locate(asked):
    """Where in or beneath a space an object lies."""
    ref, s = asked.arguments
    reference = asked.own(ref, REFERENCE)
    space = asked.place(s)
    thing = asked.led(reference, *LEADING)
    if thing is space:
        return Deed((), nothing, (HERE, 0, SPACE))
    above = thing
    while above is not None and above.home is not space:
        above = above.home
    if above is None:
        raise Refused(NONE)
    return Deed((), nothing, (above.slot, 0 if above is thing else 1, thing.kind))


def count_in(asked):
    """How many pointers lead to an object from outside a subtree, the caller's scratch left out."""
    base, s, x = asked.arguments
    top = asked.place(base)
    space = asked.place(s)
    thing = space if x == HERE else asked.resident(space, x)
    count = 0
    for other in asked.world.pointing(thing):
        scratch = other.home is asked.me.home and other.slot in SCRATCH
        if other.kind != PORT and not scratch and not asked.world.is_above(top, other):
            count += sum(other.pointer(field) is thing for field in range(len(other.fields)))
    return Deed((), nothing, (count,))


# -------------------------------------------------------------------------------------------------------------------------------- state

def record(thing):
    """The 32 words that show an object."""
    out = [thing.kind] + [0] * (RECORD - 1)
    if thing.kind == MUTEX:
        out[1] = int(thing.locked)
    elif thing.kind == MAPPING:
        out[1:5] = thing.first, thing.count, thing.offset, int(thing.write)
    elif thing.kind == REGION:
        out[1:4] = thing.first, thing.count, int(thing.write)
    elif thing.kind == PORT:
        out[1] = thing.set.slot + 1 if thing.set else 0
    elif thing.kind == THREAD:
        out[1:17] = thing.registers
        out[17:21] = thing.counter, thing.mode, thing.code if thing.mode == HALTED else 0, thing.stops
        if thing.talk is not None:
            out[21:23] = thing.talk.turn, thing.talk.moved
        if thing.fault is not None:
            out[23:26] = 1 if thing.fault.taker is None else 2, thing.fault.page, int(thing.fault.write)
    return out


def is_record(thing, given):
    """Whether an object takes a record."""
    if given[0] != thing.kind:
        return False
    if thing.kind == MUTEX:
        return given[1] <= 1
    if thing.kind == MAPPING:
        return 1 <= given[2] <= 256 and given[1] + given[2] <= 256 and given[3] <= 255 and given[4] <= 1
    if thing.kind == REGION:
        return 1 <= given[2] <= 256 and given[1] + given[2] <= 256 and given[3] <= 1
    if thing.kind == PORT:
        if given[1] == 0:
            return True
        found = thing.home.slots.get(given[1] - 1)
        return thing.served is None and found is not None and found.kind == PORTSET
    if thing.kind == THREAD:
        mode, code = given[18], given[19]
        if mode > HALTED or mode == CALLING and given[1] not in CODES:
            return False
        return code <= 255 and (code == 0 or mode == HALTED) and given[20] <= STOPS
    return True


def put_record(thing, given):
    """Sets an object by a record that it takes."""
    if thing.kind == MUTEX:
        thing.locked = given[1] == 1
    elif thing.kind == MAPPING:
        thing.first, thing.count, thing.offset, thing.write = given[1], given[2], given[3], given[4] == 1
    elif thing.kind == REGION:
        thing.first, thing.count, thing.write = given[1], given[2], given[3] == 1
    elif thing.kind == PORT:
        thing.member = thing.home.slots[given[1] - 1] if given[1] else None
    elif thing.kind == THREAD:
        thing.registers = list(given[1:17])
        thing.counter, thing.mode, thing.code, thing.stops = given[17:21]


def get_state(asked):
    """An object's record goes to memory."""
    s, x, addr = asked.arguments
    thing = asked.resident(asked.place(s), x)
    if asked.porter:
        return Deed((), nothing, record(thing))
    if addr % RECORD:
        raise Refused(BADADDRESS)
    found, place = asked.memory(addr, True)

    def doing():
        found.words()[place:place + RECORD] = record(thing)
    return Deed((found.space,), doing)


def set_state(asked):
    """And back."""
    s, x, addr = asked.arguments
    thing = asked.resident(asked.place(s), x)
    asked.unheld(thing)
    if thing.kind == THREAD and thing.mode == NATIVE:
        raise Refused(DENIED)
    if asked.porter:
        given = asked.given[:RECORD]
    else:
        if addr % RECORD:
            raise Refused(BADADDRESS)
        found, place = asked.memory(addr, False)
        given = found.words()[place:place + RECORD]
    if thing.kind == THREAD and thing.stops == 0 and asked.world.decider(thing) is not asked.me:
        raise Refused(NOTSTOPPED)
    if not is_record(thing, given):
        raise Refused(BADSTATE)
    return Deed((thing,), lambda: put_record(thing, given))


def get_ptr(asked):
    """A reference leads where a field of an object leads."""
    s, x, field, ref = asked.arguments
    thing = asked.resident(asked.place(s), x)
    reference = asked.own(ref, REFERENCE)
    if field >= len(thing.fields):
        raise Refused(BADSTATE)
    if not asked.porter and thing.kind in (SPACE, THREAD):
        raise Refused(DENIED)
    target = thing.pointer(field)
    if target is SERVICE or target is PARKED:
        return lead(asked, reference, None, (3,))
    return lead(asked, reference, target, (0 if target is None else 1 if target.gone else 2,))


HOLDS = {MAPPING: (REGION,), REGION: (PORT,), REFERENCE: LEADING}


def set_ptr(asked):
    """A field of an object leads where a reference leads."""
    s, x, field, ref = asked.arguments
    thing = asked.resident(asked.place(s), x)
    reference = asked.own(ref, REFERENCE)
    asked.unheld(thing)
    if field >= len(thing.fields):
        raise Refused(BADSTATE)
    if thing.kind in (SPACE, THREAD):
        raise Refused(DENIED)
    target = reference.to
    if target is not None and not target.gone and target.kind not in HOLDS[thing.kind]:
        raise Refused(WRONGKIND)
    return Deed((thing, thing.pointer(field), target), lambda: setattr(thing, thing.fields[field], target))


# ------------------------------------------------------------------------------------------------------------------------------- spaces

def space_hold(asked):
    """Freezes a space for all but the caller."""
    s, x = asked.arguments
    place = asked.place(s)
    space = asked.resident(place, x, SPACE)
    asked.unheld(place)
    if asked.world.is_above(space, asked.me.home):
        raise Refused(DENIED)
    for other in asked.world.walk(space):
        if other is not space and other.kind == SPACE and other.holder is not None and other.holder.mode == NATIVE:
            raise Waits
    if space.holder not in (None, asked.me):
        raise Waits

    def doing():
        space.keeps = asked.me
    return Deed((), doing)


def space_release(asked):
    """And releases it."""
    s, x = asked.arguments
    place = asked.place(s)
    space = asked.resident(place, x, SPACE)
    asked.unheld(place)
    if space.holder is not asked.me:
        raise Refused(DENIED)

    def doing():
        space.keeps = None
    return Deed((), doing)


def thread_stop(asked):
    """One stop more."""
    thread = asked.handle(asked.arguments[0], THREAD)
    asked.unheld(thread)
    if thread.stops == STOPS:
        raise Refused(FULL)

    def doing():
        thread.stops += 1
    return Deed((thread,), doing)


def thread_go(asked):
    """One stop less."""
    thread = asked.handle(asked.arguments[0], THREAD)
    asked.unheld(thread)
    if thread.stops == 0:
        raise Refused(NOTSTOPPED)

    def doing():
        thread.stops -= 1
    return Deed((thread,), doing)


def page_give(asked):
    """A space gets a page."""
    s, page, addr = asked.arguments
    space = asked.place(s)
    asked.unheld(space)
    if page >= PAGES:
        raise Refused(BADADDRESS)
    if asked.porter:
        given = list(asked.given)
    elif addr == ZEROS:
        given = [0] * PAGE
    else:
        if addr % PAGE:
            raise Refused(BADADDRESS)
        given = list(asked.memory(addr, False)[0].words())
    if page in space.pages:
        raise Refused(OCCUPIED)

    def doing():
        space.pages[page] = given
    return Deed((space,), doing)


def page_out(asked, space, takes):
    """The words of a page of a space go to the caller."""
    _, page, addr = asked.arguments
    if page >= PAGES:
        raise Refused(BADADDRESS)
    found = None
    if not asked.porter:
        if addr % PAGE:
            raise Refused(BADADDRESS)
        found = asked.memory(addr, True)[0]
    if page not in space.pages:
        raise Refused(NONE)
    taken = list(space.pages[page])

    def doing():
        if found is not None:
            found.words()[:] = taken
        if takes:
            del space.pages[page]
    touched = [found.space] if found is not None else []
    return Deed(touched + ([space] if takes else []), doing, taken if asked.porter else ())


def page_take(asked):
    """A space loses a page, whose words the caller gets."""
    space = asked.place(asked.arguments[0])
    asked.unheld(space)
    return page_out(asked, space, True)


def page_read(asked):
    """The same without the loss."""
    return page_out(asked, asked.place(asked.arguments[0]), False)


def page_next(asked):
    """The first page of a space from a number on."""
    s, start = asked.arguments
    found = [page for page in asked.place(s).pages if page >= start]
    if not found:
        raise Refused(NONE)
    return Deed((), nothing, (min(found),))


# --------------------------------------------------------------------------------------------------------------- mutexes and conditions

def set_mutex(mutex, locked):
    """A doing."""
    def doing():
        mutex.locked = locked
    return Deed((), doing)


def mutex_lock(asked):
    """Waits while it is locked, and locks it."""
    mutex = asked.own(asked.arguments[0], MUTEX)
    if mutex.locked:
        raise Waits
    return set_mutex(mutex, True)


def mutex_trylock(asked):
    """Locks it, where it isn't locked."""
    mutex = asked.own(asked.arguments[0], MUTEX)
    if mutex.locked:
        raise Refused(NONE)
    return set_mutex(mutex, True)


def mutex_unlock(asked):
    """Unlocks it, where it is locked."""
    mutex = asked.own(asked.arguments[0], MUTEX)
    if not mutex.locked:
        raise Refused(NOTLOCKED)
    return set_mutex(mutex, False)


def cond_wait(asked):
    """Unlocks the mutex, and falls asleep."""
    c, m = asked.arguments
    asked.own(c, COND)
    mutex = asked.own(m, MUTEX)
    if not mutex.locked:
        raise Refused(NOTLOCKED)

    def doing():
        mutex.locked = False
        asked.me.registers[0] = ASLEEP
    return Deed((), doing, None)


def cond_asleep(asked):
    """Sleeps, where the condition and the mutex are there."""
    c, m = asked.arguments
    asked.own(c, COND)
    asked.own(m, MUTEX)
    raise Waits


def sleepers(asked, slot):
    """The threads of the caller's space that sleep on the condition in a slot."""
    return [thing for thing in asked.me.home.slots.values()
            if thing.kind == THREAD and thing.mode == CALLING and thing.registers[0] == ASLEEP and thing.registers[1] == slot]


def wake(thread):
    """A sleeper goes on at the lock of its mutex."""
    thread.registers[0] = LOCK
    thread.registers[1] = thread.registers[2]


def cond_signal(asked):
    """Wakes the sleeper that is picked."""
    slot = asked.arguments[0]
    asked.own(slot, COND)
    asleep = sleepers(asked, slot)
    if not picks(asked, asleep):
        raise Waits
    return Deed((), lambda: wake(asked.pick) if asleep else None)


def cond_broadcast(asked):
    """Wakes all sleepers."""
    slot = asked.arguments[0]
    asked.own(slot, COND)
    asleep = sleepers(asked, slot)
    return Deed((), lambda: [wake(each) for each in asleep])


def picks(asked, candidates):
    """Whether the pick is one of the candidates, and none exactly where there is none."""
    return asked.pick in candidates if candidates else asked.pick is None


# ---------------------------------------------------------------------------------------------------------------------- talks and faults

def first_of(thread):
    """The first stage of a thread's call; nothing where it makes none."""
    return CODES[thread.registers[0]] if thread.mode == CALLING else None


OF_A_TALK = ("send", "over", "over_reference", "receive", "receive_reference")


def stands(thread, side, *names):
    """Whether a thread stands at a stage of its talk on a side."""
    first = first_of(thread)
    return first is not None and first.side == side and first.name in names


def sought(world, thread):
    """The port at which a thread stands at its Connect, unless that is refused."""
    first = first_of(thread)
    if first is None or first.name != "connect":
        return None
    try:
        return connects(Asked(world, thread, first.arguments(thread)))
    except Refused:
        return None


def connects(asked):
    """The port of a connect that isn't refused."""
    port = asked.handle(asked.arguments[0], PORT)
    if asked.me.talk is not None:
        raise Refused(LINKED)
    return port


def connect(asked):
    """Waits to be accepted."""
    connects(asked)
    raise Waits


def is_met(world, thread, ports):
    """How an accept at some ports would meet a thread: 1 by a fault, 0 by its Connect, 2 by its parked talk; nothing where it wouldn't."""
    if world.is_held(thread):
        return None
    fault = thread.fault
    if fault is not None and fault.port in ports and (fault.taker is None or fault.taker is PARKED):
        return 1
    if not world.is_free(thread):
        return None
    if sought(world, thread) in ports:
        return 0
    if thread.talk is not None and thread.talk.peer is PARKED and thread.talk.port in ports:
        return 2
    return None


def ports_of(portset):
    """The ports of a set."""
    return [thing for thing in portset.home.slots.values() if thing.kind == PORT and thing.member is portset]


def accept(client, port, peer):
    """A client's Connect is done."""
    client.talk = Talk(port, peer, CLIENT, 0)
    if isinstance(peer, type(client)):
        peer.client = client
    go_on(client)


def wait(asked):
    """Accepts, or takes up, whom the move picks."""
    portset = asked.own(asked.arguments[0], PORTSET)
    me, pick = asked.me, asked.pick
    if me.client is not None or me.faulting is not None:
        raise Refused(LINKED)
    met = is_met(asked.world, pick, ports_of(portset)) if pick is not None and pick.kind == THREAD else None
    if met is None:
        raise Waits
    if met == 0:
        port = sought(asked.world, pick)

        def doing():
            accept(pick, port, me)
            me.registers[1], me.registers[2] = port.slot, 0
            go_on(me)
        answers = (port.slot, 0)
    elif met == 1:
        fault = pick.fault
        answers = (fault.port.slot, 1 if fault.taker is None else 3, fault.page, int(fault.write))

        def doing():
            fault.taker, me.faulting = me, pick
            if not asked.porter:
                finish(me, answers)
    else:
        talk = pick.talk
        answers = (talk.port.slot, 2, talk.turn, talk.moved)

        def doing():
            talk.peer, me.client = me, pick
            if not asked.porter:
                finish(me, answers)
    return Deed((), doing, answers if asked.porter else None)


def fault_done(asked):
    """The fault that the caller has taken is over."""
    thread = asked.me.faulting
    if thread is None:
        raise Refused(NOTLINKED)
    if asked.world.is_held(thread):
        raise Waits
    return Deed((thread,), lambda: drop_fault(thread))


def talk_of(asked, side):
    """The caller's talk on a side."""
    client = asked.me if side == CLIENT else asked.me.client
    if client is None or client.talk is None:
        raise Refused(NOTLINKED)
    return client, client.talk


def turn_of(asked, side, mine):
    """The caller's talk, in the caller's own turn or in the other's."""
    client, talk = talk_of(asked, side)
    if (talk.turn == side) != mine:
        raise Refused(WRONGTURN)
    return client, talk


def other_end(client, talk, side):
    """Who stands at the other end, and on which side."""
    return (talk.peer, SERVER) if side == CLIENT else (client, CLIENT)


def is_receiving(world, talk, peer, side):
    """Whether the other end is free and at a receive of the talk that isn't refused for its handle."""
    if peer is SERVICE:
        return not world.is_held(talk.port)
    return peer is not PARKED and world.is_free(peer) and receives(world, peer, side)


def receives(world, thread, side):
    """Whether a thread stands at a receive on a side, with a reference in its slot where it wants one."""
    return stands(thread, side, "receive") or wanted(world, thread, side) is not None


def wanted(world, thread, side):
    """The reference that a thread at a receive wants to have filled; nothing where it wants none, or where that is refused."""
    if not stands(thread, side, "receive_reference"):
        return None
    try:
        return Asked(world, thread, ()).own(thread.registers[FILLED], REFERENCE)
    except Refused:
        return None


def send(asked, side):
    """Moves a block of words, from one page to one page."""
    addr, count = asked.arguments
    client, talk = turn_of(asked, side, True)
    if count == 0:
        return Deed((), nothing)
    source, place = asked.memory(addr, False)
    peer, other = other_end(client, talk, side)
    if not is_receiving(asked.world, talk, peer, other):
        raise Waits
    length = min(PAGE, count, PAGE - place)
    me, registers = asked.me, first_of(asked.me).registers
    if peer is SERVICE:
        def say():
            shift(me, registers, length)
            talk.moved = min(MOVED, talk.moved + length)
            talk.port.served.words(source.words()[place:place + length])
        return Deed((), say, () if count == length else None)
    block = Block(asked.world, peer, source.words(), place, length)
    if block.full:
        return Deed((peer,), lambda: end_call(peer, FULL), None)

    def doing():
        block.move()
        shift(me, registers, block.length)
        talk.moved = min(MOVED, talk.moved + block.length)
    return Deed((peer, block.space), doing, () if count == block.length else None)


def shift(thread, registers, length):
    """An address and a count advance."""
    at, left = registers
    thread.registers[at] += length
    thread.registers[left] -= length


class Block:
    """Words that would go to a thread at a receive. Raises Waits where its next page isn't there to be written."""

    def __init__(self, world, receiver, given, place, length):
        self.receiver, self.registers = receiver, ROOM
        at, room = (receiver.registers[register] for register in self.registers)
        self.full = room == 0
        if self.full:
            return
        found, start = address(receiver.home, at, True)
        if found is None or not found.there:
            raise Waits
        self.space, self.target, self.start = found.space, found.words(), start
        self.length = min(length, room, PAGE - start)
        self.given = list(given[place:place + self.length])

    def move(self):
        """The words go there."""
        self.target[self.start:self.start + self.length] = self.given
        shift(self.receiver, self.registers, self.length)


def receive_reference(asked, side):
    """A receive that may get a reference with the turn; its handle is looked at first."""
    asked.own(asked.arguments.pop(), REFERENCE)
    return receive(asked, side)


def receive(asked, side):
    """Is moved by the other side; alone it can only be refused or miss its page."""
    addr, room = asked.arguments
    turn_of(asked, side, False)
    if room:
        asked.memory(addr, True)
    raise Waits


def over(asked, side, sent=None):
    """The turn passes to the other side, whose receive ends; perhaps with where a reference leads."""
    client, talk = turn_of(asked, side, True)
    peer, other = other_end(client, talk, side)
    if not is_receiving(asked.world, talk, peer, other):
        raise Waits
    filled = wanted(asked.world, peer, other) if peer is not SERVICE else None
    touched = [sent.to] if sent is not None else []

    def doing():
        hand_over(talk)
        if peer is SERVICE:
            talk.port.served.over()
            return
        if filled is not None:
            peer.registers[1] = 0 if sent is None else 1
            if sent is not None:
                filled.to = sent.to
        end_call(peer, OK)
    return Deed(touched + ([] if peer is SERVICE else [peer]) + ([filled, filled.to] if filled is not None and sent is not None else []), doing)


def over_reference(asked, side):
    """The turn passes with where a reference leads; its handle is looked at first."""
    return over(asked, side, asked.own(asked.arguments[0], REFERENCE))


def hand_over(talk):
    """The turn changes."""
    talk.turn, talk.moved = SERVER + CLIENT - talk.turn, 0


def leave(asked, side):
    """The talk ends, at anybody's turn."""
    client, talk = talk_of(asked, side)

    def doing():
        # The caller stands at no stage of the talk that could end by this.
        end_talk(client)
    return Deed((talk.port, *other_end(client, talk, side)[:1]), doing)


# ------------------------------------------------------------------------------------------------------------------- for porters alone

def new_talk(asked, port_of, peer_of):
    """A thread is the client of a talk that is made again."""
    s, x, port, *rest = asked.arguments
    thread = asked.resident(asked.place(s), x, THREAD)
    port = port_of(asked, port)
    peer = peer_of(asked, *rest)
    asked.unheld(thread)
    turn, moved = asked.given[:2]

    def doing():
        thread.talk = Talk(port, peer, turn, moved)
        if peer is not PARKED:
            peer.client = thread
    return Deed((thread, port, peer, thread.talks_at, thread.talks_to), doing)


def by_reference(*kinds):
    """An object to which a reference in a slot of the caller's space leads."""
    return lambda asked, slot: asked.led(asked.own(slot, REFERENCE), *kinds)


def link_set(asked):
    """With a thread as its server."""
    return new_talk(asked, by_reference(PORT), by_reference(THREAD))


def link_park(asked):
    """With a parked one."""
    return new_talk(asked, lambda asked, slot: asked.own(slot, PORT), lambda asked: PARKED)


def new_fault(asked, port_of, taker_of):
    """A thread has a fault that is made again."""
    s, x, port, taker = asked.arguments
    thread = asked.resident(asked.place(s), x, THREAD)
    port = port_of(asked, port)
    taker = taker_of(asked, taker)
    asked.unheld(thread)
    page, write = asked.given[:2]

    def doing():
        thread.fault = Fault(page, bool(write), port, taker)
        if isinstance(taker, type(thread)):
            taker.faulting = thread
    return Deed((thread, port, taker, thread.faults_at, thread.faults_to), doing)


def fault_set(asked):
    """Taken by a thread, or raised."""
    return new_fault(asked, by_reference(PORT), lambda asked, slot: None if slot == HERE else by_reference(THREAD)(asked, slot))


def fault_park(asked):
    """Parked, or raised."""
    return new_fault(asked, lambda asked, slot: asked.own(slot, PORT), lambda asked, taken: PARKED if taken else None)


def hold_set(asked):
    """A space is held by the thread to which a reference leads."""
    s, x, ref = asked.arguments
    space = asked.resident(asked.place(s), x, SPACE)
    thread = by_reference(THREAD)(asked, ref)
    asked.unheld(space)

    def doing():
        space.keeps = thread
    return Deed((space, space.holder, thread), doing)


def space_make_held(asked):
    """A new space, which the caller holds."""
    x = asked.arguments[0]
    if x > asked.top():
        raise Refused(BADHANDLE)
    asked.unheld(asked.me.home)
    if x in asked.me.home.slots:
        raise Refused(OCCUPIED)

    def doing():
        asked.world.make(asked.me.home, x, SPACE).keeps = asked.me
    return Deed((), doing)


# -------------------------------------------------------------------------------------------------------------------------------- codes

class Stage:
    """The first stage of a call: its name, its function, the side of the talk in which it acts, the registers of its arguments, and the
    code of what is left behind it.
    """

    def __init__(self, function, registers=(), side=None, rest=None):
        self.name, self.function, self.registers, self.side, self.rest = function.__name__, function, registers, side, rest

    def arguments(self, thread):
        """Its arguments in a thread's registers."""
        return [thread.registers[register] for register in self.registers]

    def deed(self, asked):
        """What it would do. Raises Refused, Waits and Faults."""
        return self.function(asked) if self.side is None else self.function(asked, self.side)


LOCK, ASLEEP = 21, 25
SENT, ROOM, FILLED = (2, 3), (4, 5), 6
CODES = {
    1: Stage(create, (1, 2, 3)), 2: Stage(destroy, (1, 2)), 3: Stage(rename, (1, 2, 3)), 4: Stage(search, (1, 2)),
    5: Stage(point, (1, 2, 3, 4)), 6: Stage(clear, (1, 2)), 7: Stage(locate, (1, 2)), 8: Stage(count_in, (1, 2, 3)),
    9: Stage(get_state, (1, 2, 3)), 10: Stage(set_state, (1, 2, 3)), 11: Stage(get_ptr, (1, 2, 3, 4)), 12: Stage(set_ptr, (1, 2, 3, 4)),
    13: Stage(space_hold, (1, 2)), 14: Stage(space_release, (1, 2)), 15: Stage(thread_stop, (1,)), 16: Stage(thread_go, (1,)),
    17: Stage(page_give, (1, 2, 3)), 18: Stage(page_take, (1, 2, 3)), 19: Stage(page_read, (1, 2, 3)), 20: Stage(page_next, (1, 2)),
    21: Stage(mutex_lock, (1,)), 22: Stage(mutex_trylock, (1,)), 23: Stage(mutex_unlock, (1,)), 24: Stage(cond_wait, (1, 2)),
    25: Stage(cond_asleep, (1, 2)), 26: Stage(cond_signal, (1,)), 27: Stage(cond_broadcast, (1,)),
    32: Stage(connect, (1,)), 33: Stage(connect, (1,), rest=34), 34: Stage(send, SENT, CLIENT, 35), 35: Stage(over, (), CLIENT, 36),
    36: Stage(receive, ROOM, CLIENT), 37: Stage(send, SENT, CLIENT), 38: Stage(over, (), CLIENT), 39: Stage(leave, (), CLIENT),
    40: Stage(over_reference, (1,), CLIENT), 41: Stage(receive_reference, (*ROOM, FILLED), CLIENT),
    48: Stage(wait, (1,)), 49: Stage(wait, (1,), rest=50), 50: Stage(receive, ROOM, SERVER), 51: Stage(send, SENT, SERVER),
    52: Stage(over, (), SERVER), 53: Stage(send, SENT, SERVER, 54), 54: Stage(over, (), SERVER, 50), 55: Stage(leave, (), SERVER),
    56: Stage(fault_done), 57: Stage(over_reference, (1,), SERVER), 58: Stage(receive_reference, (*ROOM, FILLED), SERVER),
    60: Stage(link_set, (1, 2, 3, 4)), 61: Stage(link_park, (1, 2, 3)), 62: Stage(fault_set, (1, 2, 3, 4)),
    63: Stage(fault_park, (1, 2, 3, 4)), 64: Stage(hold_set, (1, 2, 3)), 65: Stage(space_make_held, (1,)),
}
# Codes with which an image is of version 2.
WITH_REFERENCES = {40, 41, 57, 58}
# What users are denied, and what porters are.
PORTERS_ALONE = {8, *range(60, 66)}
USERS_ALONE = set(range(21, 59)) - {48, 56}


def go_on(thread):
    """A stage of a user's call is done: what is left is next, or the whole call has ended."""
    rest = first_of(thread).rest
    if rest is None:
        end_call(thread, OK)
    else:
        thread.registers[0] = rest


def finish(thread, answers):
    """A user's whole call ends with OK, and answers from register 1 on."""
    thread.registers[1:1 + len(answers)] = answers
    end_call(thread, OK)


def frozen_in(world, me, touched):
    """Whether one of some things is frozen for a mover; they may be nothing, dead, or no things."""
    return any(hasattr(thing, "gone") and not thing.gone and world.is_frozen(me, thing) for thing in touched)


def made_by_user(world, thread, pick):
    """What a calling thread's move does; nothing where it isn't ready."""
    code = thread.registers[0]
    stage = CODES[code]
    asked = Asked(world, thread, stage.arguments(thread), (), pick)
    try:
        if code in PORTERS_ALONE:
            raise Refused(DENIED)
        deed = stage.deed(asked)
    except Waits:
        return None
    except Refused as refused:
        status = refused.status
        return (lambda: end_call(thread, status)) if pick is None else None
    except Faults as missing:
        if pick is not None or frozen_in(world, thread, (missing.keeper,)):
            return None
        fault = Fault(missing.page, missing.write, missing.keeper, None)
        return lambda: setattr(thread, "fault", fault)
    if pick is not None and stage.function not in (wait, cond_signal) or frozen_in(world, thread, deed.touched):
        return None

    def doing():
        deed.doing()
        if deed.answers is not None and not thread.gone:
            thread.registers[1:1 + len(deed.answers)] = deed.answers
            go_on(thread)
    return doing


def asked_by_porter(world, porter, code, arguments, given=(), pick=None):
    """What a porter's call does, with this pick: a doing that gives its status and its words; nothing where it isn't ready."""
    asked = Asked(world, porter, arguments, given, pick)
    try:
        if code in USERS_ALONE:
            raise Refused(DENIED)
        deed = CODES[code].deed(asked)
    except Waits:
        return None
    except Refused as refused:
        status = refused.status
        return lambda: (status, ())
    if frozen_in(world, porter, deed.touched):
        return None

    def doing():
        deed.doing()
        return OK, tuple(deed.answers or ())
    return doing
