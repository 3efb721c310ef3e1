"""Ways to measure. Each gives a function of a Meter that answers a row's number.

Mostly it is the difference of two calls: what it takes to begin and to end is left out.
"""
import pathlib
import random

from measuring import jobs, scenes
from measuring.crowds import crowd
from measuring.meter import TRIES, TRIES_OF_WORKERS
from measuring.scenes import looping

EXAMPLES = pathlib.Path(__file__).resolve().parents[2] / "examples"
TRACE = b"fluke-trace 1\n"
# So many events a turn of a worker has.
TURN = 65
# Instructions that stand between calls: a loop of as many as a call's registers take, and its jump.
BETWEEN_CALLS = "next: " + "set r1, 256\n" * 7 + "jmp next"


def run(meter, scene):
    return meter.count(["run"], scene)


def apart(few, many, between):
    """What one of those costs by which two calls differ."""
    return (many - few) / between


def each(make, few, many, number=None):
    """Of two runs, by two numbers of what they do, what one more of that costs; or one of as many as are told."""
    return lambda meter: apart(run(meter, make(few)), run(meter, make(many)), number or many - few)


def event(make, few=20_000, many=60_000):
    """Of `run`, an event of a scenario that goes on for ever, from two budgets."""
    return each(make, few, many)


def dear_event(make):
    """The same where an event costs much."""
    return event(make, 6_000, 18_000)


def paged(program, room, few, many, number=None):
    """A move of a run with a pager that keeps so many pages in memory, from two budgets; or one of as many faults as are told."""

    def measure(meter):
        counts = (meter.count(["page", "1", str(room)], scenes.paging(budget, program)) for budget in (few, many))
        return apart(*counts, number or many - few)

    return measure


def example_paged(name, room):
    """The processor's time of such a run of an example."""
    return lambda meter: meter.best(["page", "1", str(room)], (EXAMPLES / name).read_bytes())


def beside_crowd(**given):
    """The same of a thread beside a crowd, once all of the crowd wait. The two budgets are whole turns of 65 events apart, so that the last turn of both is
    equally long: one that the budget cuts off costs much more an event, and how long it is depends on when the crowd has come to wait."""
    return event(lambda budget: crowd(budget, **given), 60_000, 60_000 + 640 * TURN)


def played(make, few=20_000, many=60_000):
    """A move of `play`, by the traces of two such runs."""

    def measure(meter):
        counts = []
        for budget in (few, many):
            meter.call(["run", "--trace", "t"], make(budget))
            counts.append(meter.count(["play", "t"], make(budget)))
        return apart(*counts, many - few)

    return measure


def played_call(make, moves, calls):
    """A call by `play`, its entry and its stage, from a loop of so many moves and calls: what it takes beside its instructions."""

    def measure(meter):
        each = played(make, 500 * moves, 1_500 * moves)(meter)
        instruction = played(lambda budget: looping(budget, BETWEEN_CALLS))(meter)
        return (moves * each - (moves - 2 * calls) * instruction) / calls

    return measure


def noted(few=22_000, many=66_000):
    """What a note of a record costs beside the run that it is taken of, from two budgets."""

    def measure(meter):
        costs = [meter.count(["record", "t", "all"], scenes.noting(budget)) - run(meter, scenes.noting(budget)) for budget in (few, many)]
        return apart(*costs, (many - few) * 40 // 110)

    return measure


def tapped(make, watch, few, many, notes):
    """What a tap costs a note that its observer is asked about and doesn't see, beside the run with its trace, from two budgets; with so many notes an event.
    That is a hundredth of either, and where a stack lies changes as much."""

    def measure(meter):
        costs = []
        for budget in (few, many):
            without = meter.evened(["run", "--trace", "t"], make(budget))
            costs.append(meter.evened(["record", "t", watch], make(budget)) - without)
        return apart(*costs, (many - few) * notes)

    return measure


def million_recorded(meter):
    """The processor's time of a record of a million moves and 360,000 notes."""
    return meter.best(["record", "t", "all"], scenes.noting(1_000_000))


def million_replayed(meter):
    """The same of the replay of that record."""
    meter.call(["record", "t", "all"], scenes.noting(1_000_000))
    return meter.best(["replay", "t"], scenes.noting(1_000_000))


def record_written(meter):
    """The processor's time of a record of 400,000 notes, beside the run of which it is, with its trace."""
    scene = scenes.handing_over(1_000_000)
    return meter.best(["record", "t", "all"], scene) - meter.best(["run", "--trace", "t"], scene)


def record_read(meter):
    """The processor's time of a replay of no move, which reads that record."""
    scene = scenes.handing_over(1_000_000)
    meter.call(["record", "t", "all"], scene)
    meter.write("t.trc", TRACE)
    return meter.best(["replay", "t"], scene)


def resident_recorded(meter):
    """The most memory of that `record`, beyond the run of which it is, with its trace."""
    scene = scenes.handing_over(1_000_000)
    return meter.resident(["record", "t", "all"], scene) - meter.resident(["run", "--trace", "t"], scene)


def resident_replayed(meter):
    """The most memory of the replay of no move by that record, beyond a play of none."""
    scene = scenes.handing_over(1_000_000)
    meter.call(["record", "t", "all"], scene)
    meter.write("t.trc", TRACE)
    return meter.resident(["replay", "t"], scene) - meter.resident(["play", "t"], scene)


def million_at_random(threads, spaces):
    """The processor's time of `play` of a million moves that are drawn at random from so many threads."""

    def measure(meter):
        draw = random.Random(1).randrange
        places = (f"{1 + draw(spaces)}.{draw(threads // spaces)}\n" for _ in range(1_000_000))
        meter.write("t.trc", TRACE + "".join(places).encode())
        return meter.best(["play", "t"], looping(1_000_000, scenes.SHORT, threads, spaces))

    return measure


def million_played(meter):
    """The same of a million moves that a run of one thread made."""
    meter.call(["run", "--trace", "t"], looping(1_000_000))
    return meter.best(["play", "t"], looping(1_000_000))


def beyond_check(make, number):
    """What a run takes beyond the reading of its scenario, for each of so many."""
    return lambda meter: apart(meter.count(["check"], make(number)), run(meter, make(number)), number)


def played_beyond_check(make, number):
    """The same of a `play` of no move."""

    def measure(meter):
        meter.write("t.trc", TRACE)
        return apart(meter.count(["check"], make(number)), meter.count(["play", "t"], make(number)), number)

    return measure


def exec_instruction(loop, length):
    """An instruction of `exec`, from two numbers of rounds of a loop of so many: `addi` and `jnz`, and what stands before them."""
    rounds = (10_000, 99_000 // length)

    def measure(meter):
        texts = (f"set r1, {number}\nset r2, 200\n{loop}addi r1, r1, -1\njnz r1, 2\nhalt\n" for number in rounds)
        return apart(*(meter.count(["exec"], text.encode()) for text in texts), length * (rounds[1] - rounds[0]))

    return measure


def by_references(make, few, many, times):
    """What each reference to a port costs, where between two budgets that port is renamed or destroyed so many times."""

    def measure(meter):
        counts = [apart(run(meter, make(few, number)), run(meter, make(many, number)), times) for number in (1_000, 3_000)]
        return apart(*counts, 2_000)

    return measure


# Jobs.


def saved(put, number=1):
    """A checkpoint, less the run without it, for each of so many."""
    return lambda meter: apart(run(meter, jobs.saving(put, is_saved=False)), run(meter, jobs.saving(put)), number)


def restored(put, number=1, ports=0, beside=None):
    """A restore of what such a checkpoint saves, less the run without it, for each of so many."""

    def measure(meter):
        meter.call(["run"], jobs.saving(put))
        without, all_of_it = (run(meter, jobs.restoring(ports, beside, is_restored)) for is_restored in (False, True))
        return apart(without, all_of_it, number)

    return measure


def shown(make, spaces):
    """The processor's time of `show` of an image of so many spaces, for each 10 MB of it."""

    def measure(meter):
        octets = make(spaces)
        meter.write("a.img", octets)
        return meter.best(["show", "a"], b"") * 10_000_000 / len(octets)

    return measure


# Whole calls.


def counted(words, make):
    return lambda meter: meter.count(words, make())


def timed(words, make, *statuses):
    return lambda meter: meter.best(words, make(), statuses or (0,))


def run_timed(make, *given):
    return lambda meter: meter.best(["run"], make(*given))


def by_workers(number):
    """The time by the clock of a million events of four threads, by so many workers."""
    return lambda meter: meter.by_clock(["run"], looping(1_000_000, scenes.SEVEN, 4, 4, number), TRIES_OF_WORKERS)


def soaked(meter):
    return meter.by_clock(["soak", "100"], b"", TRIES)


# Memory.


def resident(make):
    return lambda meter: meter.resident(["run"], make())


def resident_beyond(make, without):
    """The most memory of a run less the most of another."""
    return lambda meter: meter.resident(["run"], make()) - meter.resident(["run"], without())


def asked_by_save(meter):
    """What a checkpoint asks for at most, less what the run without it does."""
    without, most = (meter.asked(["run"], jobs.saving(jobs.many_pages, is_saved)) for is_saved in (False, True))
    return most - without


def asked_by_restore(meter):
    meter.call(["run"], jobs.saving(jobs.many_pages))
    without, most = (meter.asked(["run"], jobs.restoring(is_restored=is_restored)) for is_restored in (False, True))
    return most - without
