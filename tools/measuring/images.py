"""Images, by the format of docs/FORMATS.md: so many spaces with the same number of objects, one space in slot 0 of the other.

Where objects lead somewhere, it is into spaces at random.
"""
import random
import struct

# Pages of a space, and objects where it has some: in the slots from 1 on.
PAGES, OBJECTS = 256, 200
MUTEX, CONDITION, MAPPING, REGION, PORT, PORTSET, THREAD, REFERENCE = 1, 2, 3, 4, 5, 6, 8, 9
# The kinds of all_kinds, again and again.
CYCLE = (MUTEX, CONDITION, MAPPING, REGION, PORT, PORTSET, REFERENCE)


def image(spaces, objects=b"", number=0, pages=b"", held=0):
    """Spaces that have these objects, the same ones or those that a function gives for each, and these pages."""
    parts = [b"FLUKEIMG" + struct.pack("<HI", 1, spaces)]
    for space in range(spaces):
        parts.append(struct.pack("<IBBH", space - 1 if space else 0xFFFFFFFF, 0, 0, number))
        parts.append(objects(space) if callable(objects) else objects)
        parts.append(struct.pack("<H", held) + pages)
    return b"".join(parts)


def mutex(slot):
    return bytes([slot, MUTEX, 0])


def pointer(space, slot):
    """A pointer to what lies in a slot of a space."""
    return struct.pack("<BIB", 2, space, slot)


def without_pointers(spaces):
    """Four mutexes and a condition again and again."""
    return image(spaces, b"".join(mutex(slot) if slot % 5 else bytes([slot, CONDITION]) for slot in range(1, OBJECTS + 1)), OBJECTS)


def with_references(spaces):
    """A hundred ports in each space, and a hundred references to ports."""
    draw = random.Random(1).randrange
    ports = b"".join(bytes([slot, PORT, 0, 0]) for slot in range(1, 101))

    def objects(_):
        return ports + b"".join(bytes([slot, REFERENCE]) + pointer(draw(spaces), draw(1, 101)) for slot in range(101, OBJECTS + 1))

    return image(spaces, objects, OBJECTS)


def all_kinds(spaces):
    """A mutex, a condition, a mapping of a region, a region whose keeper is a port, a port, a port set and a reference to a region again and again."""
    draw = random.Random(1).randrange
    slots = {kind: [slot for slot in range(1, OBJECTS + 1) if CYCLE[slot % len(CYCLE)] == kind] for kind in CYCLE}

    def to(kind):
        return pointer(draw(spaces), slots[kind][draw(len(slots[kind]))])

    def rest(kind):
        if kind == MAPPING:
            return struct.pack("<BHBB", 0, 1, 0, 1) + to(REGION)
        if kind == REGION:
            return struct.pack("<BHB", 0, PAGES, 1) + to(PORT)
        if kind == REFERENCE:
            return to(REGION)
        return {MUTEX: b"\0", CONDITION: b"", PORT: b"\0\0", PORTSET: b""}[kind]

    def objects(_):
        kinds = ((slot, CYCLE[slot % len(CYCLE)]) for slot in range(1, OBJECTS + 1))
        return b"".join(bytes([slot, kind]) + rest(kind) for slot, kind in kinds)

    return image(spaces, objects, OBJECTS)


def with_threads(spaces):
    """A thread and six mutexes again and again."""
    thread = bytes(16 * 8 + 8) + bytes([2, 0, 0, 0, 0, 0])
    return image(spaces, b"".join(mutex(slot) if slot % 7 else bytes([slot, THREAD]) + thread for slot in range(1, OBJECTS + 1)), OBJECTS)


def small_spaces(spaces):
    return image(spaces)


def with_pages(spaces):
    return image(spaces, pages=b"".join(bytes([number]) + bytes(512) for number in range(PAGES)), held=PAGES)
