"""Scenarios, and by which rule one is refused.

Two rounds go over the sections in their order, in each over the entries, and in an entry over the rules: the first asks 1 to 6 and 8, the
second 7, 9 and 10.
"""
import re

from . import assembler, toml

NAME = re.compile(r"[a-z0-9_]{1,32}")
PATH = re.compile(r"/|(?:/(?:0|[1-9][0-9]?|1[0-9][0-9]|2[0-3][0-9]))+")
WORDS = range(0, 1 << 63)
SLOTS = range(0, 240)
RESPONDERS = ("echo", "feed", "sum")

# What an entry may have: its form, whether it has to be there, and what it is where it isn't.
NEEDED = object()
TOP = {"budget": ("integer", NEEDED), "workers": ("integer", 1), "programs": ("table", {}), "space": ("array", []),
       "object": ("array", []), "server": ("array", []), "job": ("array", [])}
SPACE = {"path": ("text", NEEDED), "program": ("text", None), "pages": ("integers", []), "nester": ("boolean", False)}
OBJECT = {"at": ("text", NEEDED), "kind": ("text", NEEDED)}
KINDS = {
    "thread": {"entry": ("integer", 0), "regs": ("integers", []), "stops": ("integer", 0)},
    "mutex": {"locked": ("boolean", False)},
    "cond": {},
    "portset": {},
    "mapping": {"region": ("text", None), "first": ("integer", 0), "count": ("integer", 1), "offset": ("integer", 0),
                "write": ("boolean", False)},
    "region": {"first": ("integer", 0), "count": ("integer", 1), "write": ("boolean", False), "keeper": ("text", None)},
    "port": {"set": ("integer", None)},
    "reference": {"to": ("text", None)},
}
SERVER = {"port": ("text", NEEDED), "rule": ("text", NEEDED)}
ALIAS = {"alias": ("text", NEEDED)}
CONFIG = {"config": ("integers", [])}
JOB = {"kind": ("text", NEEDED), "at": ("integer", 0), "nester": ("text", NEEDED), "slot": ("integer", NEEDED), "image": ("text", NEEDED)}
BIND = {"bind": ("pairs", [])}

# What the path of an object may lead to.
LEADS = {"region": ("region",), "keeper": ("port",), "to": ("mapping", "region", "port", "thread", "space")}


class BadScenario(Exception):
    """The first refusal."""

    def __init__(self, rule, section, index):
        super().__init__(rule, section, index)
        self.rule, self.section, self.index = rule, section, index


class Entry(dict):
    """An entry with all its keys, those that were left out too. Paths are tuples of slots."""

    def __getattr__(self, name):
        return self[name]


class Scenario:
    """A scenario that was accepted. `programs` have their words by name."""

    def __init__(self, top):
        self.budget, self.workers = top.budget, top.workers
        self.programs, self.spaces, self.objects, self.servers, self.jobs = {}, [], [], [], []

    def birth(self, path):
        """The number of the space at a path, as it begins."""
        numbered = [space.path for space in self.spaces if space.path]
        return numbered.index(path) + 1 if path else 0

    def below(self):
        """The spaces that have an entry, but for the root."""
        return [space for space in self.spaces if space.path]


def path_of(text):
    """The slots of a path's text."""
    return tuple(int(slot) for slot in text.split("/")[1:]) if text != "/" else ()


def is_form(value, form):
    """Whether a value has a key's type."""
    if form == "integer":
        return type(value) is int
    if form == "boolean":
        return type(value) is bool
    if form == "text":
        return type(value) is str
    if form == "table":
        return isinstance(value, dict)
    if not isinstance(value, list):
        return False
    if form == "integers":
        return all(type(each) is int for each in value)
    if form == "pairs":
        return all(isinstance(each, list) and is_form(each, "integers") for each in value)
    return True


def entry(table, keys):
    """An entry by its keys; nothing where it breaks rule 2."""
    if not isinstance(table, dict) or any(key not in keys for key in table):
        return None
    out = Entry()
    for key, (form, default) in keys.items():
        if key not in table:
            if default is NEEDED:
                return None
            out[key] = default
        elif not is_form(table[key], form):
            return None
        else:
            out[key] = table[key]
    return out


def read(octets, responders=RESPONDERS):
    """A scenario of bytes. Raises BadScenario."""
    try:
        document = toml.read(octets)
    except toml.NoToml:
        raise BadScenario(1, 0, 0) from None
    return Reading(document, responders).scenario()


class Reading:
    """A document on its way to a scenario."""

    def __init__(self, document, responders):
        self.document, self.responders = document, responders
        self.section, self.index = 1, 0
        # What stands at each path, by its kind.
        self.placed = {(): "space"}

    def refuse(self, rule, unless):
        """The entry is refused by a rule, unless something holds."""
        if not unless:
            raise BadScenario(rule, self.section, self.index)

    def name(self, text):
        """A name's rule."""
        self.refuse(4, text is None or NAME.fullmatch(text))

    def path(self, table, *keys):
        """A path's rule; then it is its slots."""
        for key in keys:
            if table.get(key) is not None:
                self.refuse(4, PATH.fullmatch(table[key]))
        for key in keys:
            if table.get(key) is not None:
                table[key] = path_of(table[key])

    def scenario(self):
        """Both rounds."""
        top = entry(self.document, TOP)
        self.refuse(2, top is not None)
        self.refuse(3, 1 <= top.budget <= 1000000 and 1 <= top.workers <= 8)
        self.made = Scenario(top)
        self.each(2, sorted(top.programs.items(), key=lambda pair: pair[0].encode()), self.program)
        self.each(3, top.space, self.space)
        self.each(4, top.object, self.object)
        self.each(5, top.server, self.server)
        self.each(6, top.job, self.job)
        self.sets = {each.at for each in self.made.objects if each.kind == "portset"}
        self.served, self.aliases, self.images = set(), set(), set()
        self.each(4, self.made.objects, self.leads)
        self.each(5, self.made.servers, self.serves)
        self.each(6, self.made.jobs, self.works)
        return self.made

    def each(self, section, entries, rules):
        """All entries of a section."""
        self.section = section
        for self.index, one in enumerate(entries):
            rules(one)

    def program(self, pair):
        """A name and its text."""
        name, text = pair
        self.refuse(2, type(text) is str)
        self.name(name)
        try:
            self.made.programs[name] = assembler.assemble(text.encode())
        except assembler.BadText:
            self.refuse(8, False)

    def space(self, table):
        """A space's entry."""
        space = entry(table, SPACE)
        self.refuse(2, space is not None)
        self.refuse(3, all(0 <= page <= 255 for page in space.pages))
        self.refuse(3, space.path == "/" or len(self.made.below()) < 255)
        self.path(space, "path")
        self.name(space.program)
        if space.path:
            self.refuse(5, space.path not in self.placed and self.placed.get(space.path[:-1]) == "space")
        else:
            self.refuse(5, self.index == 0)
        self.refuse(8, space.program is None or space.program in self.made.programs)
        self.placed[space.path] = "space"
        self.made.spaces.append(space)

    def object(self, table):
        """An object's entry, by its kind."""
        kind = table.get("kind") if isinstance(table, dict) else None
        known = type(kind) is str and kind in KINDS
        one = entry(table, OBJECT | (KINDS[kind] if known else {}))
        self.refuse(2, one is not None)
        if kind == "thread":
            self.refuse(3, 0 <= one.entry <= 16383 and 0 <= one.stops <= 65535)
            self.refuse(3, len(one.regs) <= 16 and all(word in WORDS for word in one.regs))
        if kind in ("mapping", "region"):
            self.refuse(3, 0 <= one.first and 1 <= one.count <= 256 and one.first + one.count <= 256)
        if kind == "mapping":
            self.refuse(3, 0 <= one.offset <= 255)
        if kind == "port":
            self.refuse(3, one.set is None or one.set in SLOTS)
        self.refuse(4, known)
        self.path(one, "at", *(key for key in LEADS if key in one))
        self.refuse(4, one.at)
        self.refuse(5, self.placed.get(one.at[:-1]) == "space")
        self.refuse(6, one.at not in self.placed)
        self.placed[one.at] = kind
        self.made.objects.append(one)

    def server(self, table):
        """A server's entry, by its rule."""
        rule = table.get("rule") if isinstance(table, dict) else None
        server = entry(table, SERVER | (ALIAS if rule == "console" else CONFIG))
        self.refuse(2, server is not None)
        self.refuse(3, all(word in WORDS for word in server.get("config", [])))
        self.refuse(4, rule == "console" or rule in self.responders)
        self.path(server, "port")
        self.name(server.get("alias"))
        self.made.servers.append(server)

    def job(self, table):
        """A job's entry, by its kind."""
        restores = isinstance(table, dict) and table.get("kind") == "restore"
        job = entry(table, JOB | (BIND if restores else {}))
        self.refuse(2, job is not None)
        bind = job.get("bind", [])
        self.refuse(3, 0 <= job["at"] <= 1000000 and job.slot in SLOTS)
        self.refuse(3, all(len(pair) == 2 and pair[0] in SLOTS and pair[1] in SLOTS for pair in bind))
        self.refuse(3, self.index < 16)
        self.refuse(4, job.kind in ("checkpoint", "restore"))
        self.path(job, "nester")
        self.name(job.image)
        self.refuse(6, len({first for first, _ in bind}) == len(bind))
        self.made.jobs.append(job)

    def leads(self, one):
        """What an object leads to is there."""
        for key, kinds in LEADS.items():
            if one.get(key) is not None:
                self.refuse(7, one[key] and self.placed.get(one[key]) in kinds)
        if one.kind == "port" and one.set is not None:
            self.refuse(7, (*one.at[:-1], one.set) in self.sets)

    def serves(self, server):
        """A server's port is free for it."""
        ports = {each.at: each for each in self.made.objects if each.kind == "port"}
        self.refuse(9, server.port in ports and ports[server.port].set is None and server.port not in self.served)
        self.refuse(9, server.get("alias") is None or server.alias not in self.aliases)
        self.served.add(server.port)
        self.aliases.add(server.get("alias"))

    def works(self, job):
        """A job's nester is one, and a checkpoint saves what can be saved, once."""
        nesters = [space.path for space in self.made.spaces if space.nester]
        self.refuse(10, job.nester in nesters)
        if job.kind == "checkpoint":
            subtree = (*job.nester, job.slot)
            barred = nesters + [server.port[:-1] for server in self.made.servers]
            self.refuse(10, all(path[:len(subtree)] != subtree for path in barred))
            self.refuse(10, job.image not in self.images)
            self.images.add(job.image)
