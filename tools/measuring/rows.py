"""The rows: what each is measured by. What it is, what it was and its bound stand in the tables of docs/PERFORMANCE.md."""
import dataclasses
import typing

from measuring import images, jobs, scenes, texts, words
from measuring.crowds import HOLDS_AND_RELEASES, HOLDS_CROWD, HOLDS_OTHER, clients, crowd, halting
from measuring.scenes import ELSEWHERE, SEVEN, SHORT, looping
from measuring.ways import (
    asked_by_restore, asked_by_save, beside_crowd, beyond_check, by_references, by_workers, counted, dear_event, each, event, example_paged, exec_instruction,
    million_at_random, million_played, million_recorded, million_replayed, noted, paged, played, played_beyond_check, played_call, record_read, record_written,
    resident, resident_beyond, resident_recorded, resident_replayed, restored, run_timed, saved, shown, soaked, tapped, timed,
)

# What rows are told in: machine instructions, milliseconds and megabytes.
COUNT, TIME, MEMORY = "", "ms", "MB"


@dataclasses.dataclass
class Row:
    measure: typing.Callable
    unit: str = COUNT
    # The command that it wants, if any.
    command: typing.Optional[str] = "valgrind"
    # So many have to be there for the bound to be fair.
    processors: int = 1


def timed_row(measure, processors=1):
    return Row(measure, TIME, None, processors)


def instructions():
    yield "exec-loop", Row(exec_instruction("", 2))
    yield "exec-memory", Row(exec_instruction("add r3, r3, r1\nstore r3, r2, 0\nload r4, r2, 0\nshl r5, r4, r6\n", 6))
    yield "run-loop", Row(event(looping))
    yield "run-loop-100", Row(event(lambda budget: looping(budget, threads=100)))
    yield "run-loop-4", Row(event(lambda budget: looping(budget, threads=4, spaces=4)))
    yield "run-loop-page", Row(event(lambda budget: looping(budget, ELSEWHERE)))
    yield "run-seven", Row(event(lambda budget: looping(budget, SEVEN, 4, 4)))


def calls():
    yield "run-messages-64", Row(dear_event(lambda budget: scenes.messages(budget, 64)))
    yield "run-messages-1", Row(dear_event(lambda budget: scenes.messages(budget, 1)))
    yield "run-echo", Row(dear_event(lambda budget: scenes.to_server(budget, "echo", 64)))
    yield "run-console", Row(dear_event(lambda budget: scenes.to_server(budget, "console", 1)))
    yield "run-mutex", Row(dear_event(scenes.contending))
    yield "run-mutex-200", Row(dear_event(lambda budget: scenes.contending(budget, 200)))
    yield "run-condition", Row(dear_event(scenes.conditions))
    yield "run-make", Row(dear_event(scenes.making))
    yield "run-state", Row(dear_event(scenes.states))
    yield "run-page", Row(dear_event(scenes.pages))
    yield "run-fault", Row(dear_event(scenes.faults))


def to_servers():
    for rule in ("echo", "console"):
        yield f"words-{rule}", Row(each(lambda number, rule=rule: words.sent(number, rule), 64_000, 128_000))
    for idle in (0, 49, 149, 1_000):
        yield f"talk-{idle}", Row(each(lambda number, idle=idle: words.talks(number, idle), 100, 1_100))
    for threads in (4_000, 8_000):
        yield f"boot-{threads}", Row(beyond_check(halting, threads))
    yield "memory-loop", Row(resident(lambda: looping(1_000_000)), MEMORY, "time")
    few, many = (lambda number=number: words.sent(number, "console", 15_700) for number in (15_700, 1_004_800))
    yield "memory-console", Row(resident_beyond(many, few), MEMORY, "time")


def waiting():
    yield "crowd-none", Row(beside_crowd())
    for kind in ("mutex", "condition", "port", "send", "receive", "stopped"):
        yield f"crowd-{kind}", Row(beside_crowd(kind=kind))
    yield "crowd-held", Row(beside_crowd(kind="held", begins=HOLDS_CROWD))
    yield "crowd-held-other", Row(beside_crowd(kind="mutex", begins=HOLDS_OTHER))
    yield "crowd-held-none", Row(beside_crowd(begins=HOLDS_OTHER))
    yield "crowd-holds", Row(beside_crowd(kind="mutex", loops=HOLDS_AND_RELEASES))
    yield "crowd-holds-none", Row(beside_crowd(loops=HOLDS_AND_RELEASES))
    yield "crowd-whole", timed_row(run_timed(crowd, 80_000, "send"))
    for number in (2_500, 5_000, 10_000):
        yield f"clients-{number}", Row(beyond_check(clients, number))
    yield "clients-whole", timed_row(run_timed(clients, 10_000))


def workers():
    for number in (1, 2, 4, 8):
        yield f"workers-{number}", timed_row(by_workers(number), processors=4)
    yield "soak", timed_row(soaked)


def playing():
    yield "play-loop", Row(played(looping))
    yield "play-loop-100", Row(played(lambda budget: looping(budget, threads=100)))
    yield "play-short", Row(played(lambda budget: looping(budget, SHORT)))
    yield "play-deep", Row(played(scenes.deep))
    yield "play-deep-held", Row(played(lambda budget: scenes.deep(budget, is_held=True)))
    yield "play-make", Row(played_call(scenes.making, 12, 2))
    yield "play-make-220", Row(played_call(lambda budget: scenes.making(budget, 220), 12, 2))
    yield "play-rename", Row(played_call(scenes.renaming, 13, 2))
    yield "play-sweep", Row(played(scenes.sweeping, 20, 180))
    yield "play-hold", Row(played(scenes.holding, 6_000, 18_000))
    yield "play-hold-held", Row(played(lambda budget: scenes.holding(budget, True), 6_000, 18_000))
    yield "reference-renamed", Row(by_references(scenes.renaming, 100, 1_400, 200))
    yield "reference-destroyed", Row(by_references(scenes.destroying, 4, 5, 1))
    yield "sweep-references", Row(each(lambda budget: scenes.sweeping(budget, "port", 20_000), 4, 204, 20_000))
    yield "boot-played", Row(played_beyond_check(halting, 10_000))
    yield "play-million", timed_row(million_played)
    yield "play-million-drawn", timed_row(million_at_random(4_000, 20))


def recording():
    yield "record-note", Row(noted())
    yield "record-million", timed_row(million_recorded)
    yield "replay-million", timed_row(million_replayed)
    yield "record-write", timed_row(record_written)
    yield "record-read", timed_row(record_read)
    yield "tap-note", Row(tapped(scenes.noting, "said", 22_000, 66_000, 40 / 110))
    yield "tap-words", Row(tapped(scenes.saying, "replies", 12_000, 36_000, 1 / 6))
    yield "memory-record", Row(resident_recorded, MEMORY, "time")
    yield "memory-replay", Row(resident_replayed, MEMORY, "time")


def of_jobs():
    yield "save-mutexes", Row(saved(jobs.mutexes_and_pages))
    yield "save-references", Row(saved(jobs.references_and_pages))
    yield "restore-references", Row(restored(jobs.references_and_pages))
    yield "restore-out-10", Row(restored(jobs.leading_out(10), ports=10))
    yield "restore-out-200", Row(restored(jobs.leading_out(200), ports=200))
    yield "save-200", Row(saved(jobs.mutexes, 200))
    yield "save-20000", Row(saved(jobs.many_mutexes, 20_000))
    yield "restore-200", Row(restored(jobs.mutexes, 200))
    yield "restore-20000", Row(restored(jobs.many_mutexes, 20_000, beside=jobs.beside))
    yield "restore-side", Row(restored(jobs.side_by_side, 100))
    yield "restore-chain", Row(restored(jobs.in_a_chain, 100))
    yield "save-side", Row(saved(jobs.side_by_side, 100))
    yield "save-chain", Row(saved(jobs.in_a_chain, 100))
    yield "memory-save", Row(asked_by_save, MEMORY)
    yield "memory-restore", Row(asked_by_restore, MEMORY)


def with_pagers():
    yield "page-loop", Row(paged(ELSEWHERE, 256, 6_000, 18_000))
    # Two rounds of that loop are 62 moves, with nine faults.
    yield "page-fault", Row(paged(scenes.BY_TURNS, 2, 6_200, 18_600, 1_800))
    yield "page-sorted", timed_row(example_paged("sorted.toml", 2))


def of_images():
    yield "show-kinds", timed_row(shown(images.all_kinds, 8_000))
    yield "show-references", timed_row(shown(images.with_references, 8_000))
    yield "show-threads", timed_row(shown(images.with_threads, 2_000))
    yield "show-plain", timed_row(shown(images.without_pointers, 16_000))
    yield "show-spaces", timed_row(shown(images.small_spaces, 1_000_000))
    yield "show-pages", timed_row(shown(images.with_pages, 400))


def of_texts():
    # What a text says too much of is refused, by the status behind it.
    for name, *statuses in (("programs", 0), ("objects", 0), ("servers", 0), ("pairs", 5), ("pages", 0), ("arrays", 5), ("string", 5), ("path", 5)):
        yield f"text-{name}", timed_row(timed(["check"], getattr(texts, name), *statuses))
    yield "text-lines", timed_row(timed(["exec"], texts.lines, 4))
    yield "text-comment", timed_row(timed(["exec"], texts.comment))
    yield "text-labels", timed_row(timed(["exec"], texts.labels))
    yield "text-line-feeds", Row(counted(["exec"], texts.line_feeds))


def rows():
    """All rows by name, in the order of docs/PERFORMANCE.md."""
    parts = (instructions, calls, to_servers, waiting, workers, playing, recording, of_jobs, with_pagers, of_images, of_texts)
    return {name: row for part in parts for name, row in part()}
