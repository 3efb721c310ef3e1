"""The tables of docs/PERFORMANCE.md: of each row what it is, what was measured of the proved program, and what it may be at most."""
import dataclasses
import pathlib
import re

PAGE = pathlib.Path(__file__).resolve().parent.parent.parent / "docs" / "PERFORMANCE.md"
# A row's line: its name as code, what it is, what was measured, and its bound.
LINE = re.compile(r"\| `([a-z0-9-]+)` \| (.+) \| ([^|]+) \| ([^|]+) \|")
BOUND = re.compile(r"([\d,]+(?:\.\d+)?)( million)?(?: (ms|MB))?")


class Misspelled(Exception):
    """What is wrong with the page."""


@dataclasses.dataclass
class Entry:
    what: str
    bound: float
    unit: str


def entry_of(name, what, bound):
    found = BOUND.fullmatch(bound.strip())
    if found is None:
        raise Misspelled(f"the row {name} has no bound that can be read: {bound.strip()}")
    number = float(found[1].replace(",", "")) * (1_000_000 if found[2] else 1)
    return Entry(what.strip(), number, found[3] or "")


def entries(page=PAGE):
    """What the page has of each row, by name."""
    found = {}
    for line in page.read_text(encoding="utf-8").splitlines():
        cells = LINE.fullmatch(line.strip())
        if cells:
            if cells[1] in found:
                raise Misspelled(f"the row {cells[1]} stands twice")
            found[cells[1]] = entry_of(cells[1], cells[2], cells[4])
    return found


def joined(rows, page=PAGE):
    """What the page has of these rows, which have to be those of the page, with the same units."""
    found = entries(page)
    for name in rows.keys() ^ found.keys():
        raise Misspelled(f"the row {name} stands {'in the script' if name in rows else 'there'} alone")
    for name, row in rows.items():
        if row.unit != found[name].unit:
            raise Misspelled(f"the row {name} is measured in {row.unit or 'machine instructions'}")
    return found
