"""What the commands write, and lines of faults."""
from .world import CALLING, HALTED, NATIVE

HALTED_END, QUIET, BUDGET, LISTED = "halted", "quiet", "budget", "listed"


def path(slots):
    """A path's text."""
    return "/" + "/".join(map(str, slots))


def report(events, end, jobs, servers, world):
    """What `run` and `play` write."""
    lines = [f"events {events}", f"end {end}"]
    lines += [f"job {index} {job.line()}" for index, job in enumerate(jobs)]
    return ended(lines) + outs(servers, world)


def outs(servers, world):
    """The lines of consoles and of user threads."""
    lines = []
    for server in servers:
        if server.alias is not None:
            lines.append(" ".join(["out", server.alias, *map(str, server.printed)]))
    threads = sorted((thread.path(), thread) for thread in world.threads if thread.mode != NATIVE)
    for place, thread in threads:
        mode = f"halted {thread.code}" if thread.mode == HALTED else "calling" if thread.mode == CALLING else "running"
        lines.append(f"thread {path(place)} {mode}")
    return ended(lines)


def ended(lines):
    """Lines, each with its line feed, as bytes."""
    return "".join(line + "\n" for line in lines).encode()


def executed(halt, events, registers):
    """What `exec` writes."""
    first = f"budget events {events}" if halt is None else f"halt {halt} events {events}"
    return ended([first, " ".join(["regs", *map(str, registers)])])


def checked(scenario):
    """What `check` writes."""
    return ended([f"ok spaces {1 + len(scenario.below())} objects {len(scenario.objects)} servers {len(scenario.servers)} jobs {len(scenario.jobs)}"])


def shown(image):
    """What `show` writes."""
    objects, pages = sum(len(space.objects) for space in image.spaces), sum(len(space.pages) for space in image.spaces)
    return ended([f"version {image.version()}", f"spaces {len(image.spaces)}", f"objects {objects}", f"pages {pages}", " ".join(["outs", *map(str, image.outs())])])


class Fault(Exception):
    """A command ends with a status and a line on standard error; it may have written its output all the same."""

    def __init__(self, status, line, output=b""):
        super().__init__(status, line)
        self.status, self.line, self.output = status, "fluke: " + line, output


def usage():
    """The words are no command."""
    return Fault(2, "usage")


def too_long():
    """The source is too long."""
    return Fault(3, "too long")


def bad_text(refusal):
    """A text isn't assembled."""
    return Fault(4, f"bad text line {refusal.line} reason {refusal.reason}")


def bad_scenario(refusal):
    """A scenario is refused."""
    return Fault(5, f"bad scenario rule {refusal.rule} section {refusal.section} index {refusal.index}")


def absent(name):
    """A file isn't there."""
    return Fault(6, f"absent {name}")


def bad_image(name, refusal):
    """An image is none."""
    return Fault(7, f"bad image {name} offset {refusal.offset} reason {refusal.reason}")


def bad_trace(index):
    """A line of a trace is bad."""
    return Fault(8, f"bad trace index {index}")


def job_refused(index, output):
    """A job was refused."""
    return Fault(9, f"job {index} refused", output)


def budget(number, output):
    """The budget is used."""
    return Fault(10, f"budget {number}", output)


def not_paged():
    """A scenario may not be paged."""
    return Fault(15, "not paged")


def bad_record(line):
    """A line of a record is bad."""
    return Fault(16, f"bad record line {line}")
