"""Scenarios at random whose programs make all kinds of calls, sound and unsound ones.

A scenario is of a level, which has all that the levels before it have. Each space has objects of all kinds that its level knows; its threads
share one program, in which each has parts of its own. What the calls answer is mixed into register 12, by which a thread halts at its end,
and which it sends to a console where there is one.
"""
from . import words

LEVELS = ("plays", "objects", "memory", "messages", "states", "servers", "jobs")
(PLAYS, OBJECTS, MEMORY, MESSAGES, STATES, SERVERS, JOBS) = range(len(LEVELS))

# Where things stand in a space; spaces stand in other slots, threads from 0 on.
MUTEX, COND, SET, PORT, PORT2, REGION, MAPPING, KEPT, LOCK, LOCK2 = 20, 21, 22, 23, 24, 40, 41, 42, 50, 51
REFERENCES = range(30, 40)
NEW = range(60, 70)
SERVED = range(100, 106)
CHILDREN = (1, 10, 11)
COPIES = (12, 13, 14, 15, 60)
# The page that mappings show, and the one that regions with a keeper hold.
SHOWN, MISSED, DATA = 32, 20, 16
ODD = (0, 1, 2, 5, 31, 32, 63, 64, 239, 240, 241, 254, 255, 256, 257, 16383, 16384, 65535, 65536, 0x7FFFFFFF, 0xFFFFFFFF, words.ALL, words.ALL - 63)


class Writer:
    """The program of a space, as it grows."""

    def __init__(self, dice, labels):
        self.dice, self.labels, self.lines, self.length = dice, labels, [], 0

    def put(self, *lines):
        """Instructions."""
        self.lines += lines
        self.length += len(lines)

    def new(self):
        """A label that nothing has yet."""
        self.labels[0] += 1
        return f"l{self.labels[0]}"

    def here(self, label):
        """A label stands for the next word."""
        self.lines.append(label + ":")

    def set(self, register, value):
        """A register gets a number."""
        if value > 0xFFFFFFFF:
            self.put(f"set r{register}, 0", f"addi r{register}, r{register}, {value - words.ALL - 1}")
        else:
            self.put(f"set r{register}, {value}")

    def call(self, code, *arguments, first=1):
        """A call with its arguments; what it answers may be mixed in."""
        for register, value in enumerate(arguments, first):
            if value is not None:
                self.set(register, value)
        self.put(f"set r0, {code}", "call")
        self.mix()

    def mix(self):
        """Answers go into register 12."""
        if self.dice.random() < 0.7:
            self.put("mul r12, r12, r11", "add r12, r12, r0", "xor r12, r12, r1")
            for pair in ((2, 3), (4, 5)):
                if self.dice.random() < 0.3:
                    self.put(*(f"add r12, r12, r{register}" for register in pair))

    def loop(self, most, body):
        """A body, some times."""
        again = self.new()
        self.put(f"set r15, {self.dice.randint(1, most)}")
        self.here(again)
        body()
        self.put("addi r15, r15, -1", f"jnz r15, {again}")

    def end(self):
        """It halts, by one of four codes that register 12 chooses."""
        if self.dice.random() < 0.4:
            self.put("halt")
            return
        labels = [self.new() for _ in range(3)]
        self.put("set r9, 3", "and r9, r9, r12", f"jz r9, {labels[2]}", "addi r9, r9, -1", f"jz r9, {labels[1]}", "addi r9, r9, -1",
                 f"jz r9, {labels[0]}", f"word {words.ALL}")
        self.here(labels[0])
        self.put("div r9, r9, r9")
        self.here(labels[1])
        self.put("load r9, r9, 16384")
        self.here(labels[2])
        self.put("halt")


class Place:
    """A space of a scenario: its path, what stands in it by slot, and its threads' entries."""

    def __init__(self, path, level):
        self.path, self.level, self.objects, self.children, self.threads, self.pages = path, level, {}, [], [], []
        # References by what they lead to: the kind, and the place where it lies.
        self.leads = {}

    def of_kind(self, *kinds):
        """Slots of some kinds."""
        return [slot for slot, (kind, _) in self.objects.items() if kind in kinds]


class Scenario:
    """A scenario of a level, from dice."""

    def __init__(self, dice, level):
        self.dice, self.level = dice, level
        self.labels = [0]
        self.places = [Place((), level)]
        self.servers = []
        self.nester = level >= SERVERS
        for _ in range(dice.choice((1, 2, 2, 3, 4))):
            above = dice.choice([place for place in self.places if len(place.path) < 3 and len(place.children) < 3])
            slot = next(each for each in CHILDREN if each not in above.children)
            above.children.append(slot)
            self.places.append(Place((*above.path, slot), level))
        for place in self.places:
            self.furnish(place)
        if self.nester:
            self.serve()
        for place in self.places:
            self.refer(place)
        self.jobs = self.works() if level >= JOBS else []
        self.programs = [self.program(place) for place in self.places]

    def works(self):
        """Jobs of the root, which save subtrees in its slots and make them again."""
        dice, out, saved = self.dice, [], []
        for index in range(dice.randint(1, 4)):
            slot = dice.choice(self.places[0].children if self.maybe(0.95) else NEW)
            job = {"kind": "checkpoint", "at": dice.choice((0, 5, 20, 50, 100, 200, 1000)), "nester": "/", "slot": slot, "image": f"i{index}"}
            if saved and self.maybe(0.6):
                job["kind"], job["slot"], job["image"] = "restore", dice.choice(COPIES), dice.choice(saved)
                ports = [*(port[-1] for port, _, _ in self.servers), PORT, PORT2]
                job["bind"] = [[first, dice.choice(ports if self.maybe(0.9) else SERVED)] for first in dice.sample(ports, dice.randint(0, len(ports)))]
            else:
                saved.append(job["image"])
            out.append(job)
        return out

    def others(self, place):
        """The places to which what lies in one may lead, so that subtrees of the root's slots are mostly closed."""
        if self.level < JOBS or self.maybe(0.03):
            return self.places
        return [other for other in self.places if other.path[:1] == place.path[:1]]

    def maybe(self, chance):
        """Whether something that has a chance happens."""
        return self.dice.random() < chance

    def furnish(self, place):
        """The objects of a space but for references."""
        dice, put = self.dice, place.objects
        place.threads = [slot for slot in (0, 2, 3, 4, 5, 6, 7)[:dice.choice((1, 2, 2, 3, 4))]]
        for slot in (MUTEX, LOCK, LOCK2):
            put[slot] = "mutex", {"locked": True} if self.maybe(0.1) else {}
        place.pages = [page for page in range(DATA, DATA + 4) if self.maybe(0.9)]
        if self.level >= MEMORY:
            put[REGION] = "region", {"first": DATA, "count": 4, "write": self.maybe(0.8)}
            put[KEPT] = "region", {"first": MISSED, "count": dice.choice((2, 4)), "write": True}
        if self.level >= MESSAGES or self.level >= OBJECTS and self.maybe(0.5):
            put[COND] = "cond", {}
            put[SET] = "portset", {}
            for slot in (PORT, PORT2):
                put[slot] = "port", {"set": SET} if self.maybe(0.9) else {}

    def serve(self):
        """Native servers, at ports of the root or further down."""
        for slot in SERVED[:self.dice.randint(2, 5)]:
            place = self.places[0] if self.level >= JOBS or self.maybe(0.85) else self.dice.choice(self.places)
            place.objects[slot] = "port", {}
            rule = self.dice.choice(("console", "console", "echo", "feed", "sum"))
            keys = {"alias": f"c{slot}"} if rule == "console" else {"config": [self.dice.randint(0, 99) for _ in range(self.dice.randint(0, 3))]}
            self.servers.append(((*place.path, slot), rule, keys))

    def refer(self, place):
        """The references of a space, its mappings, and the keeper of its pages."""
        dice = self.dice
        free = list(REFERENCES)
        if self.level >= OBJECTS:
            for slot in free[:dice.randint(3, 9)]:
                other = dice.choice(self.others(place))
                kind = dice.choice(["nothing", "thread", "space"] + ["port", "served"] * 3 * (self.level >= MESSAGES)
                                   + ["region", "mapping"] * (self.level >= MEMORY))
                if self.level >= JOBS and kind == "port" and self.maybe(0.4):
                    other = self.places[0]
                to = self.target(other, kind)
                place.leads[slot] = (kind if to else "nothing"), other
                place.objects[slot] = "reference", {"to": to} if to else {}
        if self.level >= MEMORY:
            other = dice.choice(self.others(place))
            region = dice.choice((REGION, KEPT))
            first = SHOWN + (0 if self.maybe(0.8) else dice.randint(0, 3))
            place.objects[MAPPING] = "mapping", {"region": self.text((*other.path, region)), "first": first, "count": 4,
                                                 "offset": 0 if self.maybe(0.8) else dice.randint(0, 4), "write": self.maybe(0.8)}
        if self.level >= MESSAGES and self.maybe(0.8):
            other = dice.choice(self.others(place) + self.places[:1])
            place.objects[KEPT][1]["keeper"] = self.text((*other.path, dice.choice((PORT, PORT2))))

    def target(self, place, kind):
        """The path of something of a kind in a place; nothing where there is none."""
        if kind == "served":
            return self.text(self.dice.choice(self.servers)[0]) if self.servers else None
        if kind == "space":
            return self.text(place.path) if place.path else None
        if kind == "thread":
            return self.text((*place.path, self.dice.choice(place.threads)))
        slots = place.of_kind(kind)
        return self.text((*place.path, self.dice.choice(slots))) if slots else None

    @staticmethod
    def text(path):
        """A path's text."""
        return "/" + "/".join(map(str, path))

    def program(self, place):
        """The program of a space, and where each of its threads begins."""
        writer = Writer(self.dice, self.labels)
        parts = Parts(self, place, writer)
        entries = []
        for _ in place.threads:
            entries.append(writer.length)
            parts.thread()
        return writer.lines, entries

    def document(self, budget=None):
        """Its text."""
        dice = self.dice
        lines = [f"budget = {budget or dice.choice((400, 2000, 5000))}", "[programs]"]
        for index, (program, _) in enumerate(self.programs):
            lines += [f'p{index} = """', *program, '"""']
        for index, place in enumerate(self.places):
            lines += ["[[space]]", f'path = "{self.text(place.path)}"', f'program = "p{index}"', f"pages = {place.pages}"]
            lines += ["nester = true"] * (self.nester and not place.path)
        for (_, entries), place in zip(self.programs, self.places):
            for slot, entry in zip(place.threads, entries):
                lines += ["[[object]]", f'at = "{self.text((*place.path, slot))}"', 'kind = "thread"', f"entry = {entry}"]
                lines += [f"regs = {[dice.randint(0, 9) for _ in range(dice.randint(11, 13))]}"] if self.maybe(0.7) else []
                lines += [f"stops = {dice.choice((1, 1, 65535))}"] if self.level >= STATES and self.maybe(0.08) else []
            for slot, (kind, keys) in sorted(place.objects.items()):
                lines += ["[[object]]", f'at = "{self.text((*place.path, slot))}"', f'kind = "{kind}"']
                lines += [f"{key} = {spelled(value)}" for key, value in keys.items()]
        for job in self.jobs:
            lines += ["[[job]]", *(f"{key} = {spelled(value)}" for key, value in job.items())]
        for port, rule, keys in self.servers:
            lines += ["[[server]]", f'port = "{self.text(port)}"', f'rule = "{rule}"']
            lines += [f"{key} = {spelled(value)}" for key, value in keys.items()]
        return "\n".join(lines) + "\n"


def spelled(value):
    """A value in TOML."""
    if isinstance(value, bool):
        return "true" if value else "false"
    return f'"{value}"' if isinstance(value, str) else str(value)


class Parts:
    """What the threads of a space do, part by part."""

    def __init__(self, scenario, place, writer):
        self.scenario, self.place, self.writer, self.dice, self.level = scenario, place, writer, scenario.dice, scenario.level
        self.all = [self.locks] + [self.odd] * 2
        if self.level >= OBJECTS:
            self.all += [self.churn, self.churn, self.looks, self.climbs]
        if self.level >= MEMORY:
            self.all += [self.pages, self.accesses, self.accesses]
        if self.level >= MESSAGES:
            self.all += [self.sleeps, self.signals, self.serves, self.serves, self.serves, self.sends, self.sends, self.sends, self.pieces]
            self.all += [self.kills]
        if self.level >= STATES:
            self.all += [self.holds, self.holds, self.holds, self.states, self.stops, self.leads]
        if self.scenario.servers:
            self.all += [self.sends] * 3

    def thread(self):
        """A thread: some parts and an end."""
        for _ in range(self.dice.randint(1, 4)):
            self.dice.choice(self.all)()
        if self.dice.random() < 0.04:
            self.writer.put(f"jmp {self.dice.choice((16383, 16384, MISSED * 64, 4294967295, 0))}")
        if self.scenario.servers:
            self.tell()
        self.writer.end()

    def one(self, sound, chance=0.06):
        """One of what is sound, or an odd number."""
        return self.dice.choice(list(sound)) if sound and self.dice.random() >= chance else self.dice.choice(ODD)

    def space(self):
        """A handle of a space, and the place that it leads to."""
        choices = [(256, self.place)] * 3
        choices += [(slot, next(other for other in self.scenario.places if other.path == (*self.place.path, slot))) for slot in self.place.children] * 2
        choices += [(slot, other) for slot, (kind, other) in self.place.leads.items() if kind == "space"]
        handle, place = self.dice.choice(choices)
        return self.one([handle], 0.03), place

    def threads_within(self, place):
        """Slots of threads and of all else."""
        return [*place.threads, *place.objects, *place.children, *NEW]

    def references(self, *kinds):
        """References that lead to some kinds."""
        return [slot for slot, (kind, _) in self.place.leads.items() if kind in kinds]

    def locks(self):
        """A mutex, locked around an access."""
        mutex = self.one((MUTEX, LOCK, LOCK2))

        def body():
            self.writer.call(self.dice.choice((21, 21, 22)), mutex)
            self.access(DATA * 64, 256)
            self.writer.call(23, mutex if self.dice.random() < 0.95 else self.one((MUTEX, LOCK)))
        self.writer.loop(3, body)

    def access(self, begin, length):
        """A load and a store."""
        self.writer.put(f"set r7, {begin + self.dice.randrange(length)}", "load r9, r7, 0", "addi r9, r9, 3", "add r12, r12, r9")
        if self.dice.random() < 0.8:
            self.writer.put("store r9, r7, 0")

    def accesses(self):
        """Pages that a mapping shows, and pages that somebody else has to give."""
        for _ in range(self.dice.randint(1, 3)):
            self.access(*self.dice.choice(((SHOWN * 64, 512), (SHOWN * 64, 256), (MISSED * 64, 256))))

    def odd(self):
        """A call with any code and any arguments."""
        codes = {PLAYS: (21, 22, 23), OBJECTS: range(1, 9), MEMORY: range(1, 21), MESSAGES: range(17, 59)}
        code = self.dice.choice([*codes.get(self.level, range(1, 66)), 0, 28, 66])
        if self.level < STATES and code in range(9, 17):
            code = 20
        pool = [*self.threads_within(self.place), 256, *ODD, DATA * 64, SHOWN * 64]
        self.writer.call(code, *(self.dice.choice(pool) if self.dice.random() < 0.9 else None for _ in range(6)))

    def churn(self):
        """Objects are made, led, renamed and destroyed."""
        handle, place = self.space()
        slot = self.one(NEW)
        kinds = (1, 2, 3, 4, 5, 6, 7, 8, 9, 9, 9, 9) if self.level >= MEMORY else (1, 2, 5, 6, 7, 8, 9, 9, 9, 9)
        kinds = [kind for kind in kinds if kind != 7 or self.level < JOBS]
        self.writer.call(1, handle, slot, self.one(kinds))
        for _ in range(self.dice.randint(1, 5)):
            self.change(handle, place, slot)
        if self.dice.random() < 0.8:
            self.writer.call(2, handle, slot)

    def change(self, handle, place, slot):
        """One change of objects."""
        within = self.threads_within(place)
        other, elsewhere = self.space()
        choice = self.dice.random()
        if choice < 0.35:
            self.writer.call(5, handle, slot, other, self.one(self.threads_within(elsewhere)))
        elif choice < 0.55:
            old, new = self.one((slot, *within)), self.one((*NEW, LOCK, LOCK2))
            self.writer.call(3, handle, old, new)
            if self.dice.random() < 0.5:
                self.writer.call(3, handle, new, old)
        elif choice < 0.65:
            self.writer.call(6, handle, slot)
        elif choice < 0.75:
            self.writer.call(7, self.one((slot, *self.place.leads)), other)
        elif choice < 0.85:
            self.writer.call(2, handle, self.one(NEW))
        elif choice < 0.9 and self.level >= MESSAGES:
            self.writer.call(2, handle, self.one(within))
        elif self.level >= STATES:
            self.writer.call(self.dice.choice((11, 12)), handle, self.one(within), self.one((0, 0, 1), 0.1), self.one((slot, *self.place.leads)))
        else:
            self.looks()

    def climbs(self):
        """Who would change what it lies in."""
        above = [(slot, other) for slot, (kind, other) in self.place.leads.items() if kind == "space" and other.path == self.place.path[:len(other.path)]]
        if not above or self.level >= MESSAGES and self.dice.random() < 0.5:
            self.looks()
            return
        slot, other = self.dice.choice(above)
        # The slot there in which its own space lies, or itself.
        within = [*self.place.path[len(other.path):len(other.path) + 1], self.one(NEW)]
        self.writer.call(self.dice.choice((2, 3, 5, 13) if self.level >= STATES else (2, 3, 5)), slot, self.dice.choice(within), self.one(NEW), 256)

    def kills(self):
        """Threads, ports and sets that are in use are destroyed or get another name."""
        handle, place = self.space()
        delay = self.dice.randrange(12)
        if delay:
            self.writer.loop(delay, lambda: self.writer.put("addi r14, r14, 1"))
        for _ in range(self.dice.randint(1, 3)):
            slot = self.one([*place.threads, PORT, PORT, PORT2, SET, COND, KEPT, *(each for each in place.objects if each in SERVED)])
            if self.dice.random() < 0.5:
                self.writer.call(2, handle, slot)
            else:
                self.writer.call(3, handle, slot, self.one(NEW))

    def leads(self):
        """Where mappings, regions and references lead is copied and changed."""
        handle, place = self.space()
        mine = self.one(list(self.place.leads))
        for _ in range(self.dice.randint(1, 3)):
            slot = self.one([MAPPING, REGION, KEPT, *place.leads])
            self.writer.call(11, handle, slot, self.one((0,), 0.15), mine)
            if self.dice.random() < 0.7:
                other, elsewhere = self.space()
                self.writer.call(12, other, self.one([MAPPING, KEPT, *elsewhere.leads]), self.one((0,), 0.15), mine)

    def looks(self):
        """Reading alone."""
        handle, _ = self.space()
        choice = self.dice.randrange(3 if self.level >= MEMORY else 2)
        if choice == 0:
            self.writer.call(4, handle, self.one((0, 1, 23, 60, 61, 200)))
        elif choice == 1:
            self.writer.call(7, self.one(list(self.place.leads)), handle)
        else:
            self.writer.call(20, handle, self.one((0, 1, 17, 20)))

    def pages(self):
        """Pages are given, read and taken."""
        handle, _ = self.space()
        page = self.one((DATA, DATA + 1, MISSED, MISSED + 1, 100))
        for _ in range(self.dice.randint(1, 4)):
            at = self.one([64 * each for each in (DATA, DATA + 1, DATA + 2, SHOWN, MISSED)])
            self.writer.call(self.dice.choice((17, 18, 18, 19)), handle, page, self.one((at, at, words.ALL)))

    def sleeps(self):
        """A sleeper."""
        mutex = self.one((MUTEX, LOCK))
        if self.dice.random() < 0.9:
            self.writer.call(21, mutex)
        self.writer.call(24, COND, self.one((mutex,)))
        self.writer.call(23, mutex)

    def signals(self):
        """Who wakes sleepers."""
        for _ in range(self.dice.randint(1, 3)):
            self.writer.call(self.dice.choice((26, 26, 27)), self.one((COND,)))

    def buffer(self):
        """An address, mostly of pages that are there."""
        begin = self.dice.choice((DATA * 64, DATA * 64, (DATA + 1) * 64, SHOWN * 64, MISSED * 64))
        return self.one((begin + self.dice.randrange(192),), 0.03)

    def count(self):
        """A number of words."""
        return self.dice.choice((0, 1, 1, 2, 3, 5, 20, 64, 65, 130, 150))

    def sends(self):
        """A client: whole messages, one after the other."""
        port = self.one(self.references("port", "served", "served") or [PORT, PORT2])

        def body():
            at = self.buffer()
            self.writer.put(f"set r14, {self.dice.randrange(1000)}", "add r14, r14, r15")
            self.writer.set(7, at)
            if self.dice.random() < 0.7:
                self.writer.put("store r14, r7, 0")
            if self.dice.random() < 0.8:
                self.writer.call(33, port, at, self.count(), self.buffer(), self.count())
            else:
                self.writer.call(32, port)
                self.writer.call(34, at, self.count(), self.buffer(), self.count(), first=2)
            if self.dice.random() < 0.3:
                self.writer.call(34, at, self.count(), self.buffer(), self.count(), first=2)
            if self.dice.random() < 0.9:
                self.writer.call(39)
        self.writer.loop(3, body)

    def pieces(self):
        """A client that goes stage by stage, and may leave out some."""
        if self.dice.random() < 0.8:
            self.writer.call(32, self.one(self.references("port", "served") or [PORT, PORT2]))
        codes = [self.dice.choice((34, 35, 36, 37, 37, 38, 38, 40, 40, 41, 41)) for _ in range(self.dice.randint(1, 4))]
        if self.dice.random() < 0.5:
            # A whole message, with references to and fro.
            codes = [37] * self.dice.randint(0, 1) + [self.dice.choice((38, 40, 40)), self.dice.choice((36, 41, 41))]
        for code in codes:
            sent = (self.buffer(), self.count()) if code in (34, 37) else (None, None)
            room = (self.buffer(), self.count()) if code in (34, 35, 36, 41) else (None, None)
            self.writer.call(code, self.given() if code == 40 else None, *sent, *room, self.given() if code == 41 else None)
        if self.dice.random() < 0.7:
            self.writer.call(39)

    def serves(self):
        """A server, which answers calls and faults, and takes up what is open."""
        writer = self.writer
        faults, resumed, done, ended = (writer.new() for _ in range(4))

        def body():
            at, room = self.buffer(), self.count()
            writer.call(*((49, SET, None, None, at, room) if self.dice.random() < 0.8 else (48, SET)))
            writer.put(f"jnz r2, {faults}")
            if self.dice.random() < 0.7:
                writer.put(f"jnz r0, {ended}")
            codes = [self.dice.choice((50, 51, 52, 53, 53, 54, 57, 57, 58, 58)) for _ in range(self.dice.randint(1, 2))]
            if self.dice.random() < 0.5:
                codes = [self.dice.choice((50, 58, 58))] + [51] * self.dice.randint(0, 1) + [self.dice.choice((52, 57, 57))]
            for code in codes:
                sent = (self.buffer(), self.count()) if code in (51, 53) else (None, None)
                taken = (at, room) if code in (50, 53, 54, 58) else (None, None)
                writer.call(code, self.given() if code == 57 else None, *sent, *taken, self.given() if code == 58 else None)
            writer.here(ended)
            if self.dice.random() < 0.9:
                writer.call(55)
            writer.put(f"jmp {done}")
            writer.here(faults)
            writer.put("set r13, 2", "xor r13, r13, r2", f"jz r13, {resumed}", "mov r10, r3")
            if self.dice.random() < 0.9:
                writer.put("mov r2, r10")
                writer.set(1, self.one([256, *self.place.children, *self.references("space")]))
                writer.set(3, words.ALL if self.dice.random() < 0.7 else DATA * 64)
                writer.call(17)
            writer.call(56)
            writer.put(f"jmp {done}")
            writer.here(resumed)
            writer.call(52)
            writer.call(55)
            writer.here(done)
        writer.loop(8, body)

    def given(self):
        """A reference that is sent, or filled."""
        return self.one(list(self.place.leads) or NEW)

    def held(self):
        """A space that may be held: its slot, and its place."""
        return [(slot, next(other for other in self.scenario.places if other.path == (*self.place.path, slot))) for slot in self.place.children]

    def holds(self):
        """Who holds a space, and changes what lies in it."""
        within = self.held()
        if not within:
            self.odd()
            return
        slot, place = self.dice.choice(within)
        self.writer.call(13, self.one((256,), 0.03), slot)
        for _ in range(self.dice.randint(1, 5)):
            choice = self.dice.random()
            if choice < 0.4:
                self.copies(slot, place)
            elif choice < 0.55:
                self.change(slot, place, self.one(NEW))
            elif choice < 0.65 and place.children:
                self.writer.call(self.dice.choice((13, 14)), slot, self.dice.choice(place.children))
            elif choice < 0.8:
                self.writer.call(self.dice.choice((17, 18, 19)), slot, self.one((DATA, MISSED, MISSED + 1)), self.one((DATA * 64, words.ALL)))
            else:
                self.writer.loop(6, lambda: self.writer.put("addi r14, r14, 1"))
        if self.dice.random() < 0.9:
            self.writer.call(14, 256, slot)

    def copies(self, handle, place):
        """A record is read, perhaps changed, and set."""
        slot = self.one([*place.threads, *place.threads, *self.threads_within(place)])
        at = 64 * self.dice.choice((DATA, DATA + 1, SHOWN)) + self.dice.choice((0, 32))
        at = self.one((at,), 0.04)
        self.writer.call(9, handle, slot, at)
        for _ in range(self.dice.choice((0, 0, 1, 2))):
            word = self.dice.choice((0, 1, 1, 2, 3, 4, 17, 18, 19, 20))
            value = self.dice.choice((0, 1, 2, 3, 21, 23, 25, 33, 40, 48, 50, 255, 256, 65535, 65536) if word != 20 else (0, 1, 65535, 65536))
            self.writer.put(f"set r7, {at + word & 0x3FFF}", f"set r9, {value}", "store r9, r7, 0")
        if self.dice.random() < 0.8:
            self.writer.call(10, handle, slot, at)

    def states(self):
        """Records without a hold."""
        self.copies(*self.space())

    def stops(self):
        """Who stops another thread for a while."""
        thread = self.one(self.references("thread") or self.place.threads)
        self.writer.call(15, thread)
        for _ in range(self.dice.randint(0, 2)):
            self.states()
        for _ in range(self.dice.choice((0, 1, 1, 1, 2))):
            self.writer.call(16, thread)

    def tell(self):
        """What it has found goes to a console."""
        references = self.references("served")
        if references:
            self.writer.put(f"set r7, {DATA * 64}", "store r12, r7, 0")
            self.writer.call(33, self.dice.choice(references), DATA * 64, 1, 0, 0)
            self.writer.call(39)
