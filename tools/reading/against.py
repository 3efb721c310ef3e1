"""Holds a program against the reading: new cases are called in a folder of their own, and compared.

What a run writes hangs on the order of its moves, so its trace is read: the reading makes the same moves, and must come to the same report and
the same images. Then a move that it holds for one that isn't ready is put behind some of them, and the program has to refuse it there.
"""
import pathlib
import random
import subprocess
import tempfile

from . import commands, images, jobs, records, runs, seeds, texts
from .cases import Answer

SECONDS = 120


class Differs(Exception):
    """The program and the reading differ."""


def called(program, words, source, files):
    """What a program makes of a command: status, line, output, and all files that its folder has then."""
    with tempfile.TemporaryDirectory() as folder:
        room = pathlib.Path(folder)
        for name, octets in files.items():
            (room / name).write_bytes(octets)
        try:
            ended = subprocess.run([program, *words], input=source, capture_output=True, cwd=room, timeout=SECONDS, check=False)
        except subprocess.TimeoutExpired:
            raise Differs(f"the program takes longer than {SECONDS} seconds") from None
        return ended.returncode, ended.stderr.decode().rstrip("\n") or None, ended.stdout, {path.name: path.read_bytes() for path in room.iterdir()}


def expect(program, words, source, files, answer):
    """One call comes to what was answered, and leaves its files as they are."""
    status, line, output, after = called(program, words, source, files)
    compare((status, line, output), (answer.status, answer.error, answer.output))
    if after != files:
        raise Differs(f"files {sorted(after)}")


def compare(got, wanted):
    """Status, line and output."""
    if got != wanted:
        raise Differs(f"the program {got}\n    the reading {wanted}")


def hold(program, kind, seed, index):
    """Holds it against one new case; whether the reading could say all of it."""
    words, source, files, answer = seeds.new(kind, seed, index)
    if answer.plays is None:
        expect(program, words, source, files, answer)
        return True
    return judged(program, random.Random(f"{kind} {seed} {index}"), words, source, files)


def judged(program, dice, words, source, files):
    """Judges a run by its trace."""
    status, line, output, after = called(program, words, source, files)
    name = words[1] if words[0] == "record" else words[2]
    trace = after.pop(name + ".trc")
    record = after.pop(name + ".rec") if words[0] == "record" else None
    scenario = commands.scenario_of(source)
    told = [each for each in output.decode().split("\n") if each.startswith("job ")]

    def begun():
        return runs.Run(scenario, commands.needed(scenario, files), told)
    run = begun()
    try:
        runs.play(run, trace)
        wanted = answered(run)
    except runs.BadTrace as refusal:
        raise Differs(f"the reading refuses move {refusal.index} of the trace: {trace.splitlines()[refusal.index + 1]}") from None
    except jobs.Untold:
        return False
    compare((status, line, output), (wanted.status, wanted.error, wanted.output))
    made = {job.name + ".img": images.write(job.image) for job in run.jobs if job.kind == "checkpoint" and job.end == jobs.DONE}
    if after != files | made:
        raise Differs(f"images {[name for name in after | made if after.get(name) != (files | made).get(name)]}")
    expect(program, ["play", "t"], source, files | {"t.trc": trace}, wanted)
    if record is not None:
        expect_replays(program, dice, words[2], source, files | {"t.trc": trace}, (record, records.written(run.servers, words[2])), wanted)
    expect_refusal(program, dice, source, files, trace, begun())
    return True


def expect_replays(program, dice, watch, source, files, both, wanted):
    """The record is the reading's, and replays; and one that is changed somewhere comes to what the reading says."""
    record, own = both
    if record != own:
        raise Differs(f"the record {record}\n    the reading's {own}")
    if watch != "said":
        expect(program, ["replay", "t"], source, files | {"t.rec": record}, wanted)
    at = dice.randrange(len(record))
    changed = dice.choice((record[:at], record[:at] + dice.choice((b"0", b"7", b" ", b"\n", b"/")) + record[at + dice.randrange(2):]))
    spoilt = files | {"t.rec": changed}
    try:
        answer = commands.answer(["replay", "t"], source, spoilt)
    except jobs.Untold:
        return
    expect(program, ["replay", "t"], source, spoilt, answer)


def answered(run):
    """How a run is answered."""
    try:
        return Answer(output=run.outcome())
    except texts.Fault as fault:
        return Answer(fault.status, fault.line, fault.output)


def expect_refusal(program, dice, source, files, trace, run):
    """Some of the moves, and then one that isn't ready."""
    lines = trace.decode().splitlines()[1:]
    length = dice.randint(0, min(len(lines), run.budget - 1))
    runs.play(run, runs.trace_of(lines[:length]))
    line = seeds.Walk(dice, run).unready()
    if line is not None:
        refused = texts.bad_trace(length)
        expect(program, ["play", "t"], source, files | {"t.trc": runs.trace_of([*lines[:length], line])}, Answer(refused.status, refused.line))
