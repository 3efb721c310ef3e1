"""Records: what passed at native servers, as a text, and the replies that are read of one."""
import re

from . import texts

HEAD = b"fluke-record 1"
NUMBER = rb"(?:0|[1-9][0-9]{0,19})"
LINE = re.compile(rb"(/\S+) (?:taken (?:client|server) (" + NUMBER + rb")|over|ended|(said|reply)((?: " + NUMBER + rb"){0,64}))")
MOVED, WORDS = 1 << 16, 1 << 64


class BadRecord(Exception):
    """The number of the first bad line, counted from 1."""

    def __init__(self, line):
        super().__init__(line)
        self.line = line


def recorded(servers):
    """The servers that a record is of: all but the consoles."""
    return [server for server in servers if server.alias is None]


def written(servers, watch):
    """The record of a run."""
    lines = [f"{texts.path(server.port.path())} {' '.join(map(str, note))}" for server in recorded(servers) for note in server.notes_seen(watch)]
    return texts.ended([HEAD.decode(), *lines])


def read(ports, octets):
    """The replies for each of some ports, by their paths as they are written. Raises BadRecord."""
    head, feed, rest = octets.partition(b"\n")
    if head != HEAD or not feed:
        raise BadRecord(1)
    lines = rest.split(b"\n")
    # What stands behind the last line feed is a bad line, if it is anything.
    last = lines.pop()
    replies, place = [[] for _ in ports], 0
    for number, line in enumerate(lines, 2):
        place = note(ports, replies, place, line, number)
    if last:
        raise BadRecord(len(lines) + 2)
    return replies


def note(ports, replies, place, line, number):
    """Reads a line, and gives the place of its port."""
    spelled = LINE.fullmatch(line)
    if spelled is None or spelled[1].decode("latin-1") not in ports:
        raise BadRecord(number)
    words = [int(word) for word in (spelled[4] or b"").split()]
    at = ports.index(spelled[1].decode("latin-1"))
    if at < place or int(spelled[2] or 0) >= MOVED or any(word >= WORDS for word in words):
        raise BadRecord(number)
    if spelled[3] == b"reply":
        replies[at].append(words)
    return at
