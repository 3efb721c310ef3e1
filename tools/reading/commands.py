"""Whole commands: words, source and files in; status, line, output and files out.

A run may make its moves in any order, so what `run` writes isn't told here, but what refuses it is, and that it makes a run.
"""
import functools
import re

from . import assembler, images, pager, records, runs, scenarios, texts
from .cases import Answer

LENGTH = 1048576
NAME = re.compile(r"[a-z0-9_]{1,32}")
PLAIN = re.compile(r"0|[1-9][0-9]*")


def answer(words, source, files):
    """What comes of a command."""
    try:
        return Answer(output=done(words, source, files))
    except Runs as run:
        return Answer(plays=run.trace)
    except texts.Fault as fault:
        return Answer(fault.status, fault.line, fault.output)


class Runs(Exception):
    """A run is made, and leaves a trace of that name, or none."""

    def __init__(self, trace):
        super().__init__(trace)
        self.trace = trace


def done(words, source, files):
    """What a command writes. Raises a fault."""
    form = form_of(words)
    if form == "show":
        return texts.shown(image_of(words[1], files))
    if len(source) > LENGTH:
        raise texts.too_long()
    if form == "exec":
        return executed(source)
    try:
        scenario = scenario_of(source)
    except scenarios.BadScenario as refusal:
        raise texts.bad_scenario(refusal) from None
    if form == "check":
        return texts.checked(scenario)
    if form == "page":
        return pager.paged(runs.Run(scenario), int(words[1]), int(words[2]))
    images_needed = needed(scenario, files)
    if form == "run":
        raise Runs(words[2] if len(words) > 1 else None)
    if form == "record":
        raise Runs(words[1])
    if form == "replay":
        return replayed(scenario, images_needed, words[1], files)
    return played(runs.Run(scenario, images_needed), words[1], files)


@functools.lru_cache(maxsize=4)
def scenario_of(source):
    """The scenario of a source; several cases ask for one."""
    return scenarios.read(source)


def is_number(word, least, most):
    """Whether a word is one of these numbers, without a leading zero."""
    return PLAIN.fullmatch(word) is not None and least <= int(word) <= most


def form_of(words):
    """Which command the words are."""
    named = len(words) > 1 and NAME.fullmatch(words[-1])
    if words in (["exec"], ["check"], ["run"]) or len(words) == 2 and words[0] in ("play", "replay", "show") and named:
        return words[0]
    if len(words) == 3 and words[0] == "record" and NAME.fullmatch(words[1]) and words[2] in ("all", "replies", "said"):
        return "record"
    if len(words) == 3 and words[0] == "page" and is_number(words[1], 0, 239) and is_number(words[2], 2, 256):
        return "page"
    if len(words) == 3 and words[:2] == ["run", "--trace"] and named:
        return "run"
    raise texts.usage()


def image_of(name, files):
    """An image that is needed."""
    if name + ".img" not in files:
        raise texts.absent(name)
    try:
        return images.read(files[name + ".img"])
    except images.BadImage as refusal:
        raise texts.bad_image(name, refusal) from None


def needed(scenario, files):
    """The images of the shelf that restores need, by name."""
    made, out = set(), {}
    for job in scenario.jobs:
        if job.kind == "checkpoint":
            made.add(job.image)
        elif job.image not in made and job.image not in out:
            out[job.image] = image_of(job.image, files)
    return out


def executed(source):
    """What `exec` writes."""
    try:
        halt, events, registers = runs.execute(assembler.assemble(source))
    except assembler.BadText as refusal:
        raise texts.bad_text(refusal) from None
    output = texts.executed(halt, events, registers)
    if halt is None:
        raise texts.budget(runs.EXECUTED, output)
    return output


def replayed(scenario, images_needed, name, files):
    """What a replay writes. All of the trace is spelled, and the record is read, before any move is made."""
    if name + ".trc" not in files:
        raise texts.absent(name)
    try:
        runs.spelled(files[name + ".trc"])
    except runs.BadTrace as refusal:
        raise texts.bad_trace(refusal.index) from None
    if name + ".rec" not in files:
        raise texts.absent(name)
    ports = [texts.path(entry.port) for entry in scenario.servers if entry.get("alias") is None]
    try:
        replies = records.read(ports, files[name + ".rec"])
    except records.BadRecord as refusal:
        raise texts.bad_record(refusal.line) from None
    return played(runs.Run(scenario, images_needed, replies=replies), name, files)


def played(run, name, files):
    """What a play writes."""
    if name + ".trc" not in files:
        raise texts.absent(name)
    try:
        runs.play(run, files[name + ".trc"])
    except runs.BadTrace as refusal:
        raise texts.bad_trace(refusal.index) from None
    return run.outcome()
