"""Scenarios at random, sound ones and such as break any of the rules, spelled in many ways."""
from . import scenarios
from .any_text import spoilt

NAMES = ("a", "copy", "p_1", "soak", "x" * 32)
BAD_NAMES = ("", "A", "a b", "x" * 33, "é")
PROGRAMS = ("halt\n", "", "set r0, 21\nset r1, 5\ncall\nhalt\n", "l: jmp l", "set r6, 7 ; c\n")
BAD_PROGRAMS = ("bogus", "jmp nowhere", "set r16, 1", "l: l: halt")


def document(dice):
    """A scenario's text, sound or with faults of all kinds."""
    top = {"budget": dice.choice((1, 1000, 1000000))}
    fault = dice.choice((0, 0, 0.01, 0.01, 0.03))
    if dice.random() < 0.3:
        top["workers"] = number(dice, 1, 8, fault)
    used = sorted(dice.sample(NAMES, dice.randint(0, 3)))
    if used:
        top["programs"] = {name: dice.choice(PROGRAMS if dice.random() >= fault else BAD_PROGRAMS) for name in used}
        if dice.random() < fault:
            top["programs"][dice.choice(BAD_NAMES)] = "halt"
    spaces = spaces_of(dice, used, fault)
    paths = [space["path"] for space in spaces if isinstance(space.get("path"), str)]
    objects = objects_of(dice, sorted({"/", *paths}), fault)
    servers = servers_of(dice, objects, fault)
    jobs = jobs_of(dice, [space["path"] for space in spaces if space.get("nester") is True], fault)
    for key, entries in (("space", spaces), ("object", objects), ("server", servers), ("job", jobs)):
        if entries or dice.random() < 0.1:
            top[key] = entries
    for table in (top, *spaces, *objects, *servers, *jobs):
        if dice.random() < fault:
            damage(dice, table)
    return spoilt(dice, Toml(dice).document(top).encode(), fault)


def number(dice, least, most, fault):
    """A number in a range, or with a chance beside it."""
    if dice.random() < fault:
        return dice.choice((least - 1, most + 1, -1, 1 << 62))
    return dice.choice((least, most, dice.randint(least, most), dice.randint(least, min(most, least + 10))))


def below(path, slot):
    """The path of what stands in a slot."""
    return f"{path if path != '/' else ''}/{slot}"


def spaces_of(dice, used, fault):
    """Entries of spaces."""
    out, paths = [], ["/"]
    if dice.random() < 0.5:
        out.append({"path": "/"})
    for _ in range(dice.choice((0, 1, 2, 3, 5))):
        path = below(dice.choice(paths), dice.choice((0, 1, 9, 10, 239, dice.randint(0, 239))))
        if path not in paths or dice.random() < fault:
            paths.append(path)
            out.append({"path": path if dice.random() >= fault else dice.choice(("1", "/01", "/240", "/1/", "//", "", "/1/2/3", "/"))})
    for space in out:
        if used and dice.random() < 0.6:
            space["program"] = dice.choice(used if dice.random() >= fault else NAMES + BAD_NAMES)
        if dice.random() < 0.5:
            space["pages"] = [number(dice, 0, 255, fault) for _ in range(dice.randint(0, 4))]
        if dice.random() < 0.4:
            space["nester"] = dice.random() < 0.8
    if dice.random() < fault:
        dice.shuffle(out)
    return out


def objects_of(dice, paths, fault):
    """Entries of objects; those that lead somewhere mostly lead to what is there."""
    out, taken = [], set(paths)
    for _ in range(dice.choice((0, 1, 3, 6, 12))):
        at = below(dice.choice(paths), dice.choice((dice.randint(0, 10), 239, dice.randint(0, 239))))
        if at in taken and dice.random() >= fault:
            continue
        taken.add(at)
        kind = dice.choice(list(scenarios.KINDS)) if dice.random() >= fault else dice.choice(("space", "Mutex", ""))
        out.append({"at": at, "kind": kind})
    for each in out:
        fill(dice, each, out, paths, fault)
    return out


def fill(dice, each, others, paths, fault):
    """The other keys of an object."""
    def leading(*kinds):
        there = [other["at"] for other in others if other["kind"] in kinds] + ([path for path in paths if path != "/"] if "space" in kinds else [])
        return dice.choice(there) if there and dice.random() >= fault else dice.choice(["/", "/7/7", *paths, *(other["at"] for other in others)])
    ranges = {"entry": (0, 16383), "stops": (0, 65535), "offset": (0, 255), "first": (0, 255)}
    keys = list(scenarios.KINDS.get(each["kind"], {}))
    dice.shuffle(keys)
    for key in keys:
        if dice.random() < 0.4:
            continue
        if key in ranges:
            each[key] = number(dice, *ranges[key], fault)
        elif key == "count":
            each[key] = number(dice, 1, max(1, 256 - each["first"]) if isinstance(each.get("first"), int) else 256, fault)
        elif key == "regs":
            each[key] = [number(dice, 0, (1 << 63) - 1, fault / 8) for _ in range(dice.choice((0, 1, 5, 16)) + (dice.random() < fault))]
        elif key in ("locked", "write"):
            each[key] = dice.random() < 0.5
        elif key == "set":
            sets = [other["at"] for other in others if other["kind"] == "portset" and other["at"].rpartition("/")[0] == each["at"].rpartition("/")[0]]
            if sets or dice.random() < fault:
                each[key] = int(dice.choice(sets).rpartition("/")[2]) if sets and dice.random() >= fault else number(dice, 0, 239, fault)
        else:
            each[key] = leading(*scenarios.LEADS[key])
    if "count" in each and "first" in each and dice.random() >= fault:
        each["count"] = min(each["count"], max(1, 256 - each["first"]))


def servers_of(dice, objects, fault):
    """Entries of servers, mostly at ports without a set."""
    out = []
    ports = [each["at"] for each in objects if each["kind"] == "port" and "set" not in each]
    dice.shuffle(ports)
    for port in ports[:dice.randint(0, 3)]:
        if dice.random() < fault:
            port = dice.choice(["/", "/9/9", "9", *(each["at"] for each in objects)])
        server = {"port": port, "rule": dice.choice(("console", "echo", "feed", "sum")) if dice.random() >= fault else "shout"}
        if server["rule"] == "console":
            server["alias"] = f"a{len(out)}" if dice.random() >= fault else dice.choice(("a0", *BAD_NAMES))
        elif dice.random() < 0.6:
            server["config"] = [number(dice, 0, (1 << 63) - 1, fault) for _ in range(dice.randint(0, 3))]
        out.append(server)
    return out


def jobs_of(dice, nesters, fault):
    """Entries of jobs, mostly of nesters."""
    out = []
    for index in range(dice.choice((0, 0, 1, 2, 3)) if nesters or dice.random() < fault else 0):
        job = {"kind": dice.choice(("checkpoint", "restore")) if dice.random() >= fault else "copy",
               "nester": dice.choice(nesters) if nesters and dice.random() >= fault else dice.choice(("/", "/1", "1")),
               "slot": number(dice, 0, 239, fault), "image": f"i{index}" if dice.random() >= fault else dice.choice(("i0", *BAD_NAMES))}
        if dice.random() < 0.5:
            job["at"] = number(dice, 0, 1000000, fault)
        if job["kind"] == "restore" and dice.random() < 0.6:
            firsts = dice.sample(range(240), 3)
            job["bind"] = [[first if dice.random() >= fault else firsts[0], number(dice, 0, 239, fault)] + [1] * (dice.random() < fault / 2)
                           for first in firsts[:dice.randint(0, 3)]]
        out.append(job)
    return out


def damage(dice, table):
    """Something is wrong in a table: a key too many, one too few, or of another type."""
    choice = dice.random()
    if choice < 0.3 or not table:
        table[dice.choice(("colour", "set", "count", "bind", "config", "alias", "program", "x"))] = dice.choice((1, "a", True, []))
    elif choice < 0.6:
        del table[dice.choice(list(table))]
    else:
        table[dice.choice(list(table))] = dice.choice((0, -1, 1 << 62, 1.5, "", "a", "/1", True, [], [1], [[1, 2]], [True], {}, {"a": 1}, When("1979-05-27")))


class When(str):
    """A date, as it is spelled."""


class Toml:
    """Spells a document in one of the many ways."""

    def __init__(self, dice):
        self.dice = dice

    def document(self, top):
        """All of it."""
        plain = [(key, value) for key, value in top.items() if not (isinstance(value, dict) or isinstance(value, list) and value)]
        rest = [(key, value) for key, value in top.items() if (key, value) not in plain]
        lines = []
        for key, value in list(rest):
            whole = isinstance(value, list) and all(isinstance(each, dict) for each in value)
            if not (whole or isinstance(value, dict)) or self.dice.random() < 0.2:
                plain.append((key, value))
                rest.remove((key, value))
        self.dice.shuffle(plain)
        lines += [self.pair(key, value) for key, value in plain]
        self.dice.shuffle(rest)
        for key, value in rest:
            for table in value if isinstance(value, list) else [value]:
                lines.append((f"[[{key}]]" if isinstance(value, list) else f"[{key}]") + self.comment())
                pairs = list(table.items())
                self.dice.shuffle(pairs)
                lines += [self.pair(*pair) for pair in pairs]
        return "\n".join(lines) + self.dice.choice(("", "\n"))

    def comment(self):
        """Perhaps a comment."""
        return " # c" if self.dice.random() < 0.03 else ""

    def pair(self, key, value):
        """A key and its value."""
        return f"{self.key(key)} = {self.value(value)}{self.comment()}"

    def key(self, key):
        """A key."""
        bare = key and all(character.isascii() and (character.isalnum() or character in "_-") for character in key)
        return key if bare and self.dice.random() < 0.95 else self.value(key)

    def value(self, value):
        """A value."""
        if isinstance(value, When) or isinstance(value, float):
            return str(value)
        if isinstance(value, bool):
            return "true" if value else "false"
        if isinstance(value, int):
            return self.number(value)
        if isinstance(value, str):
            return self.string(value)
        between = self.dice.choice((",", ", ", ", ", " ,\n  "))
        inner = between.join(self.pair(*each) for each in value.items()) if isinstance(value, dict) else between.join(map(self.value, value))
        inner += "," if value and self.dice.random() < 0.1 else ""
        inner += "\n" if "#" in inner else ""
        return "{" + inner + "}" if isinstance(value, dict) else "[" + inner + "]"

    def number(self, value):
        """An integer."""
        choice = self.dice.random()
        if value >= 0 and choice < 0.05:
            return self.dice.choice(("+%d", "0x%x", "0o%o")) % value
        return f"{value:_}" if choice < 0.08 else str(value)

    def string(self, value):
        """A string."""
        plain = not any(character in value for character in "\n'\"\\")
        choice = self.dice.random()
        if plain and choice < 0.3:
            return f"'{value}'"
        escaped = value.replace("\\", "\\\\").replace('"', '\\"')
        if choice < 0.4:
            return '"""' + self.dice.choice(("", "\n")) + escaped + '"""'
        if choice < 0.5:
            escaped = escaped.replace("a", self.dice.choice(("\\x61", "\\u0061", "a")))
        return '"' + escaped.replace("\n", "\\n") + '"'
