"""Who can move, and what a move does.

A mover is a user's thread, a served port, which stands for its native server, or a porter. A move may pick a thread.
"""
from . import calls, words
from .world import CALLING, HALTED, NATIVE, PORT, RUNNING, THREAD, Fault, address


def instruction(world, thread):
    """What a running thread's instruction does; nothing where it isn't ready."""
    halt = halting(thread)
    found, place = address(thread.home, thread.counter, False)
    if found is None:
        return lambda: halt(words.BAD_ADDRESS)
    if not found.there:
        return missing(world, thread, found, False)
    asked = words.act(found.words()[place], thread.registers, thread.counter)
    what = asked[0]
    if what == "go":
        _, register, value, counter = asked

        def go():
            if register is not None:
                thread.registers[register] = value
            thread.counter = counter
        return go
    if what == "halt":
        return lambda: halt(asked[1])
    if what == "call":
        return lambda: enter(thread)
    write = what == "store"
    found, place = address(thread.home, asked[1 if write else 2], write)
    if found is None:
        return lambda: halt(words.BAD_ADDRESS)
    if not found.there:
        return missing(world, thread, found, write)
    if write and world.is_frozen(thread, found.space):
        return None

    def access():
        if write:
            found.words()[place] = asked[2]
        else:
            thread.registers[asked[1]] = found.words()[place]
        thread.counter = thread.counter + 1 & words.ALL
    return access


def halting(thread):
    """How a thread halts with a code."""
    def halt(code):
        thread.mode, thread.code = HALTED, code
    return halt


def missing(world, thread, found, write):
    """A page is missing: a fault to its keeper, or a halt."""
    if found.keeper is None:
        return lambda: halting(thread)(words.MISSING_PAGE)
    if calls.frozen_in(world, thread, (found.keeper,)):
        return None
    return lambda: setattr(thread, "fault", Fault(found.page, write, found.keeper, None))


def enter(thread):
    """`call` enters the call that the registers name."""
    if thread.registers[0] in calls.CODES:
        thread.mode = CALLING
    else:
        thread.registers[0] = calls.BADCALL
        thread.counter = thread.counter + 1 & words.ALL


def deed(world, mover, pick=None):
    """What a user's or a native server's move does; nothing where it isn't ready. Porters move by jobs."""
    if mover.kind == PORT:
        return mover.served.deed(world, pick) if mover.served is not None else None
    if mover.kind != THREAD or mover.mode == NATIVE or not world.is_free(mover):
        return None
    if mover.mode == RUNNING:
        return instruction(world, mover) if pick is None else None
    return calls.made_by_user(world, mover, pick)


def picked(world, mover):
    """Whom a mover may have to choose among: nobody, and the threads that its next move could pick."""
    if mover.kind == PORT:
        ports = [mover] if mover.served is not None and mover.served.client is None else []
    else:
        first = calls.first_of(mover) if mover.mode != NATIVE else None
        if first is None or first.name not in ("wait", "cond_signal"):
            return [None]
        if first.name == "cond_signal":
            return [None] + [thing for thing in mover.home.slots.values() if thing.kind == THREAD and thing.mode == CALLING]
        portset = mover.home.slots.get(mover.registers[1])
        ports = calls.ports_of(portset) if portset is not None else []
    return [None] + [thread for thread in world.threads if calls.is_met(world, thread, ports) is not None] if ports else [None]


def ready(world, mover):
    """All picks with which a user's or a native server's move is ready."""
    return [pick for pick in picked(world, mover) if deed(world, mover, pick) is not None]


def movers(world):
    """All that may move: user threads and served ports."""
    out = [thread for thread in world.threads if thread.mode != NATIVE]
    return out + [thing for space in world.spaces.values() for thing in space.slots.values()
                  if thing.kind == PORT and thing.served is not None]


def is_quiet(world):
    """Whether no user's and no native server's move is ready."""
    return not any(ready(world, mover) for mover in movers(world))


def has_halted(world):
    """Whether every user's thread has halted."""
    return all(thread.mode == HALTED for thread in world.threads if thread.mode != NATIVE)
