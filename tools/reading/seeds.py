"""Cases at random, of many kinds, with what is answered: what is asked comes from dice, so the same seed makes the same cases.

A case is what a file of cases has: words, a source and files.
"""
import random

from . import any_image, any_program, any_scenario, any_text, any_toml, cases, commands, moves, runs
from .world import CALLING, NATIVE, PORT


def asks_text(dice):
    """`exec` of a text."""
    return ["exec"], any_text.text(dice), {}


def asks_toml(dice):
    """`check` of any document."""
    return ["check"], any_toml.Document(dice).text(), {}


def asks_check(dice):
    """`check` of a scenario."""
    return ["check"], any_scenario.document(dice), {}


def asks_image(dice):
    """`show` of an image."""
    return ["show", "a"], b"", {"a.img": any_image.image(dice)}


def asks_restored(dice):
    """A run that restores an image."""
    outs = [4, 9, 11, 239, 0]
    lines = ["budget = 3000", "[[space]]", 'path = "/"', "nester = true"]
    for slot in outs if dice.random() < 0.9 else dice.sample(outs, 3):
        lines += ["[[object]]", f'at = "/{slot}"', 'kind = "port"']
    lines += ["[[job]]", 'kind = "restore"', 'nester = "/"', "slot = 1", 'image = "a"']
    return ["run", "--trace", "t"], ("\n".join(lines) + "\n").encode(), {"a.img": any_image.image(dice)}


class Walk:
    """Moves at random of a run, as lines of a trace."""

    def __init__(self, dice, run):
        self.dice, self.run, self.lines = dice, run, []

    def movers(self):
        """All that may move at some time."""
        return moves.movers(self.run.world)

    def go(self, length):
        """So many moves, or fewer where none is ready any more."""
        mover, missed = None, 0
        movers = self.movers()
        while len(self.lines) < length:
            if mover is None or mover.gone or self.dice.random() < 0.3:
                if missed > 2 * len(movers) or not movers:
                    movers = [each for each in self.movers() if moves.ready(self.run.world, each)]
                    missed = 0
                    if not movers:
                        return
                mover = self.dice.choice(movers)
            if not self.step(mover):
                mover, missed = None, missed + 1
            else:
                missed = 0
                if self.run.events % 16 == 0:
                    movers = self.movers()

    def step(self, mover):
        """A move of a mover, where one is ready."""
        if mover.gone:
            return False
        picks = moves.picked(self.run.world, mover)
        self.dice.shuffle(picks)
        for pick in picks:
            line = runs.line_of(mover, pick)
            deed = self.run.deed(mover, pick)
            if deed is not None:
                self.lines.append(line)
                self.run.turn(deed)
                return True
        return False

    def unready(self):
        """The line of a move that isn't ready; nothing where none was found."""
        movers, threads = self.movers(), [thread for thread in self.run.world.threads if thread.mode != NATIVE]
        found = []
        for mover in movers:
            for pick in (None, *self.dice.sample(threads, min(2, len(threads)))):
                if self.run.deed(mover, pick) is None:
                    # Those that call, or serve, and name nobody wrongly tell most.
                    weight = 6 if mover.kind == PORT or mover.mode == CALLING else 1
                    found += [(mover, pick)] * (weight if pick is None else 2)
        return runs.line_of(*self.dice.choice(found)) if found else None


def asks_play(level):
    """A play of a scenario of a level: whole, or with a last move that isn't ready."""
    def asks(dice):
        source = any_program.Scenario(dice, level).document().encode()
        scenario = commands.scenario_of(source)
        walk = Walk(dice, runs.Run(scenario))
        walk.go(min(scenario.budget, dice.choice((50, 150, 400, 800))))
        if dice.random() < 0.4 and len(walk.lines) < scenario.budget:
            line = walk.unready()
            walk.lines += [line] if line is not None else []
        return ["play", "t"], source, {"t.trc": runs.trace_of(walk.lines)}
    return asks


def asks_run(dice):
    """A run of a scenario of any level."""
    return ["run", "--trace", "t"], any_program.Scenario(dice, dice.randrange(any_program.JOBS)).document().encode(), {}


def asks_jobs(dice):
    """A run with jobs."""
    return ["run", "--trace", "t"], any_program.Scenario(dice, any_program.JOBS).document().encode(), {}


def asks_record(dice):
    """A run with native servers, of which a record is made."""
    watch = dice.choice(("all", "replies", "said"))
    return ["record", "t", watch], any_program.Scenario(dice, any_program.SERVERS).document().encode(), {}


KINDS = {
    "texts": asks_text, "toml": asks_toml, "check": asks_check, "images": asks_image, "restored": asks_restored, "runs": asks_run, "jobs": asks_jobs, "records": asks_record,
    **{name if name == "plays" else f"plays-{name}": asks_play(level) for level, name in enumerate(any_program.LEVELS[:any_program.JOBS])},
}


def new(kind, seed, index):
    """A case from dice: words, source, files, and what is answered."""
    dice = random.Random(f"{kind} {seed} {index}")
    words, source, files = KINDS[kind](dice)
    return words, source, files, commands.answer(words, source, files)


def lines(kind, seed, index):
    """Its lines in a file of cases."""
    words, source, files, answer = new(kind, seed, index)
    out = [f"case {kind} of seed {seed}, number {index}", " ".join(["words", *words])]
    out += ["source", *cases.spelled(source)] if source else []
    for name, octets in files.items():
        out += ["file " + name, *cases.spelled(octets)]
    return [*out, *answer.text(), ""]
