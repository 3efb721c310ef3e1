"""Scenarios of threads in endless loops: of instructions, and of calls.

The programs are texts of the machine's assembler (docs/FORMATS.md), and the calls in them go by their codes (docs/CALLS.md). A scenario takes the
budget of its run first: two runs of it differ by so many events of the loop alone.
"""
import dataclasses

# Loops of three, two, three and seven instructions. What they write lies in the page of their program, of the third in another.
LOOP = "next: addi r8, r8, 1\nstore r8, r9, 50\njmp next"
SHORT = "next: addi r8, r8, 1\njmp next"
ELSEWHERE = "set r9, 64\nnext: addi r8, r8, 1\nstore r8, r9, 0\njmp next"
SEVEN = "next: addi r8, r8, 1\nstore r8, r9, 50\nload r7, r9, 50\nadd r6, r6, r7\nmul r5, r6, r7\nstore r5, r9, 51\njmp next"
# A loop of three loads, each from a page of its own.
BY_TURNS = "set r2, 64\nset r3, 128\nset r4, 192\nnext: load r1, r2, 0\nload r1, r3, 0\nload r1, r4, 0\njmp next"
# A space has so many slots for objects and spaces.
SLOTS = 240


def call(code, **registers):
    """The lines of a call: its registers, and the instruction."""
    return f"set r0, {code}\n" + "".join(f"set {register}, {number}\n" for register, number in registers.items()) + "call\n"


def text_of(value):
    """A value of TOML."""
    if isinstance(value, bool):
        return str(value).lower()
    if isinstance(value, (list, tuple, range)):
        return "[" + ",".join(map(text_of, value)) + "]"
    return str(value) if isinstance(value, int) else '"' + value.replace("\n", "\\n") + '"'


def table_of(entry):
    return "{" + ",".join(f"{key}={text_of(value)}" for key, value in entry.items()) + "}"


@dataclasses.dataclass
class Scene:
    """A scenario as it is put together."""

    budget: int
    workers: int = 1
    programs: dict = dataclasses.field(default_factory=dict)
    entries: dict = dataclasses.field(default_factory=lambda: {"space": [], "object": [], "server": [], "job": []})

    def space(self, path, program=None, **keys):
        """A space, in which the program of this text stands."""
        if program is not None:
            keys["program"] = self.programs.setdefault(program, f"p{len(self.programs)}")
        self.entries["space"].append({"path": path, **keys})
        return self

    def object(self, at, kind, **keys):
        self.entries["object"].append({"at": at, "kind": kind, **keys})
        return self

    def server(self, port, rule, **keys):
        """A port, and a native server at it."""
        self.object(port, "port")
        self.entries["server"].append({"port": port, "rule": rule, **keys})
        return self

    def job(self, kind, image):
        self.entries["job"].append({"kind": kind, "nester": "/", "slot": 1, "image": image})
        return self

    def bytes(self):
        lines = [f"budget = {self.budget}", f"workers = {self.workers}"]
        lines += [f"{section} = [{','.join(map(table_of, entries))}]" for section, entries in self.entries.items() if entries]
        lines += ["[programs]", *(f"{name} = {text_of(text)}" for text, name in self.programs.items())]
        return "\n".join(lines).encode() + b"\n"


# Threads that make instructions.


def looping(budget, program=LOOP, threads=1, spaces=1, workers=1):
    """So many threads of one program, in so many spaces."""
    scene = Scene(budget, workers)
    for space in range(1, spaces + 1):
        scene.space(f"/{space}", program, pages=[1] if program == ELSEWHERE else [])
        for thread in range(threads // spaces):
            scene.object(f"/{space}/{thread}", "thread")
    return scene


def deep(budget, depth=250, is_held=False):
    """A thread so many spaces deep."""
    scene = Scene(budget)
    if is_held:
        hold_elsewhere(scene)
    for level in range(1, depth):
        scene.space("/1" * level)
    return scene.space("/1" * depth, SHORT).object("/1" * depth + "/0", "thread")


def hold_elsewhere(scene):
    """A thread of the root that holds a space and halts. No space stands in the scenario before these."""
    scene.space("/", call(13, r1=256, r2=231) + "halt").space("/231").object("/230", "thread")


# Threads that make calls.


def messages(budget, words):
    """Two users that send one another so many words, turn for turn."""
    client = call(32, r1=1) + "next: " + call(34, r2=128, r3=words, r4=192, r5=words) + "jmp next"
    server = call(49, r1=8, r4=192, r5=words) + "next: " + call(53, r2=128, r3=words, r4=192, r5=words) + "jmp next"
    scene = Scene(budget).space("/1", client, pages=[1, 2, 3]).space("/2", server, pages=[1, 2, 3])
    scene.object("/1/0", "thread").object("/1/1", "reference", to="/2/9")
    return scene.object("/2/0", "thread").object("/2/8", "portset").object("/2/9", "port", set=8)


def to_server(budget, rule, words):
    """A user that sends so many words to a native server, message by message, in one talk."""
    client = call(32, r1=1) + "next: " + call(34, r2=128, r3=words, r4=192, r5=64) + "jmp next"
    scene = Scene(budget).space("/1", client, pages=[1, 2, 3]).object("/1/0", "thread").object("/1/1", "reference", to="/9")
    return scene.server("/9", rule, **({"alias": "a"} if rule == "console" else {}))


def noting(budget):
    """A user that connects to a native server, is replied to and disconnects, over and over: 40 notes of a record in 110 events."""
    client = "set r1, 1\nset r2, 128\nset r3, 0\nset r4, 192\nset r5, 1\nnext: set r0, 33\ncall\nset r0, 39\ncall\njmp next"
    scene = Scene(budget).space("/1", client, pages=[1, 2, 3]).object("/1/0", "thread").object("/1/1", "reference", to="/9")
    return scene.server("/9", "sum", config=[7])


def saying(budget):
    """A user that sends a native server 64 words, over and over, and never hands over: a note in 6 events."""
    client = call(32, r1=1) + "next: " + call(37, r2=128, r3=64) + "jmp next"
    scene = Scene(budget).space("/1", client, pages=[1, 2, 3]).object("/1/0", "thread").object("/1/1", "reference", to="/9")
    return scene.server("/9", "sum", config=[])


def handing_over(budget):
    """A user that hands over to a native server which replies nothing, over and over: 40 notes of a record in 100 events."""
    client = call(32, r1=1) + "set r4, 192\nset r5, 0\nnext: set r0, 35\ncall\njmp next"
    scene = Scene(budget).space("/1", client, pages=[1, 2, 3]).object("/1/0", "thread").object("/1/1", "reference", to="/9")
    return scene.server("/9", "feed", config=[])


def contending(budget, threads=2):
    """Threads that contend for a mutex."""
    program = "next: " + call(21, r1=239) + call(23, r1=239) + "jmp next"
    scene = Scene(budget).space("/1", program).object("/1/239", "mutex")
    for thread in range(threads):
        scene.object(f"/1/{thread}", "thread")
    return scene


def conditions(budget):
    """Two threads that signal one another and wait."""
    program = call(21, r1=5) + "next: " + call(26, r1=6) + call(24, r1=6, r2=5) + "jmp next"
    scene = Scene(budget).space("/1", program).object("/1/5", "mutex").object("/1/6", "cond")
    return scene.object("/1/0", "thread").object("/1/1", "thread")


def making(budget, beside=0):
    """A thread that creates a mutex and destroys it, beside others in its space."""
    program = "next: " + call(1, r1=256, r2=7, r3=1) + call(2, r1=256, r2=7) + "jmp next"
    scene = Scene(budget).space("/1", program).object("/1/0", "thread")
    for slot in range(10, 10 + beside):
        scene.object(f"/1/{slot}", "mutex")
    return scene


def renaming(budget, references=0):
    """A thread that renames a port, there and back, to which so many references lead."""
    program = "next: " + call(3, r1=256, r2=7, r3=8) + call(3, r1=256, r2=8, r3=7) + "jmp next"
    scene = Scene(budget).space("/1", program).object("/1/0", "thread").object("/1/7", "port")
    return refer(scene, references, ["/1/7"])


def destroying(budget, references):
    """A thread that destroys a port, to which so many references lead, and halts."""
    scene = Scene(budget).space("/1", call(2, r1=256, r2=7) + "halt").object("/1/0", "thread").object("/1/7", "port")
    return refer(scene, references, ["/1/7"])


def refer(scene, references, ports, first=2):
    """So many references, each to the next of these ports, in spaces of the root from this slot on."""
    for at in range(references):
        path = f"/{first + at // SLOTS}"
        if at % SLOTS == 0:
            scene.space(path)
        scene.object(f"{path}/{at % SLOTS}", "reference", to=ports[at % len(ports)])
    return scene


def sweeping(budget, kind="mutex", references=0):
    """A thread that destroys a space of 200 objects, to which so many references lead, and halts."""
    scene = Scene(budget).space("/", call(2, r1=256, r2=1) + "halt").space("/1").object("/0", "thread")
    inside = [f"/1/{slot}" for slot in range(200)]
    for path in inside:
        scene.object(path, kind)
    return refer(scene, references, inside)


def states(budget):
    """A thread that reads the state of another, which is stopped."""
    program = "next: " + call(9, r1=256, r2=1, r3=128) + "jmp next"
    return Scene(budget).space("/1", program, pages=[1, 2, 3]).object("/1/0", "thread").object("/1/1", "thread", stops=1)


def pages(budget):
    """A thread that gives itself a page and takes it away."""
    program = "next: " + call(17, r1=256, r2=9, r3=64) + call(18, r1=256, r2=9, r3=128) + "jmp next"
    return Scene(budget).space("/1", program, pages=[1, 2, 3]).object("/1/0", "thread")


def faults(budget):
    """A thread that loads from a page that isn't there, and the pager that gives it."""
    pager = "next: " + call(48, r1=8) + call(17, r1=7, r2=5, r3=64) + call(56) + "jmp next"
    program = "next: set r2, 320\nload r1, r2, 0\n" + call(18, r1=256, r2=5, r3=64) + "jmp next"
    scene = Scene(budget).space("/", pager, pages=[1, 2, 3]).space("/1", program, pages=[1, 2, 3])
    scene.object("/0", "thread").object("/7", "reference", to="/1").object("/8", "portset").object("/9", "port", set=8)
    return scene.object("/1/0", "thread").object("/1/2", "region", first=0, count=256, write=True, keeper="/9")


def paging(budget, program):
    """A thread whose pages the porter of the root may keep back."""
    scene = Scene(budget).space("/", nester=True).space("/1", program, pages=[1, 2, 3])
    scene.object("/8", "portset").object("/10", "port", set=8)
    return scene.object("/1/0", "thread").object("/1/2", "region", first=0, count=256, write=True, keeper="/10")


def holding(budget, is_held=False, others=248):
    """A thread that holds a space and releases it, beside other spaces."""
    scene = Scene(budget)
    if is_held:
        hold_elsewhere(scene)
    program = "next: " + call(13, r1=256, r2=1) + call(14, r1=256, r2=1) + "jmp next"
    scene.space("/1", program).space("/1/1").object("/1/0", "thread")
    for at in range(others):
        outer, inner = divmod(at, SLOTS)
        scene.space(f"/{2 + outer}/{inner - 1}" if inner else f"/{2 + outer}")
    return scene
