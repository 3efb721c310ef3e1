"""Scenarios of forty processes, which are long and regular: all behind the programs of each is made, and the programs stay as they stand."""
from . import cases
from .any_program import spelled

BRANCHES = (1, 2, 3, 7)
# The branch that is saved.
SAVED = "/7"
MANY = 40


def table(section, /, **keys):
    """A table of an array, and an empty line."""
    return [f"[[{section}]]", *(f"{key} = {spelled(value)}" for key, value in keys.items()), ""]


def port(slot):
    """A port of the root."""
    return table("object", at=f"/{slot}", kind="port")


def reference(at, to):
    """A reference."""
    return table("object", at=at, kind="reference", to=to)


def tree(beneath, below):
    """Paths of four branches with processes in some slots of each, and in some of each of these, each before what lies in it."""
    out = []
    for branch in BRANCHES:
        out.append(f"/{branch}")
        for second in beneath:
            out.append(f"/{branch}/{second}")
            out += [f"/{branch}/{second}/{third}" for third in below]
    return out


def is_saved(path):
    """Whether it lies in the branch that is saved."""
    return path == SAVED or path.startswith(SAVED + "/")


def row():
    """Forty in a row, of which each knows the next."""
    lines = []
    for slot in range(1, MANY + 1):
        lines += table("space", path=f"/{slot}", program="first" if slot == 1 else "later", pages=[8])
    lines += port(0)
    for slot in range(1, MANY + 1):
        lines += table("object", at=f"/{slot}/0", kind="thread") + reference(f"/{slot}/3", f"/{slot + 1}/23" if slot < MANY else "/0")
        if slot > 1:
            lines += table("object", at=f"/{slot}/22", kind="portset") + table("object", at=f"/{slot}/23", kind="port", set=22)
    return lines + table("server", port="/0", rule="console", alias="count")


def branches():
    """Forty in a tree; each thread begins at an entry of its own, which sets its number."""
    paths = tree((1, 2, 3), (1, 2))
    lines = table("space", path="/", nester=True)
    for path in paths:
        lines += table("space", path=path, program="inside" if is_saved(path) else "outside", pages=[8])
    for slot in (*range(20, 20 + MANY), 11, 12):
        lines += port(slot)
    inside = sum(map(is_saved, paths))
    for index, path in enumerate(paths):
        entry = 2 * (index - (MANY - inside) if is_saved(path) else index)
        lines += table("object", at=f"{path}/0", kind="thread", **({"entry": entry} if entry else {}))
        lines += reference(f"{path}/10", f"/{20 + index}")
        if not is_saved(path):
            lines += reference(f"{path}/11", "/11") + reference(f"{path}/12", "/12")
    for index in range(MANY):
        lines += table("server", port=f"/{20 + index}", rule="console", alias=f"c{index + 1}")
    return lines + table("server", port="/11", rule="echo", config=[]) + table("server", port="/12", rule="feed", config=[3] * (MANY - inside))


def saved_branches():
    """Forty in a tree, one branch of which is saved, and made again with consoles of its own."""
    paths = tree((4, 5, 6), (4, 5))
    saved = [100 + index for index, path in enumerate(paths) if is_saved(path)]
    lines = table("space", path="/", nester=True)
    for path in paths:
        lines += table("space", path=path, program="alone" if is_saved(path) else "served", pages=[1])
    for slot in (9, 10, *range(100, 100 + MANY + len(saved))):
        lines += port(slot)
    for index, path in enumerate(paths):
        lines += table("object", at=f"{path}/0", kind="thread", regs=[0] * 8 + [1000 * index, 10]) + reference(f"{path}/1", f"/{100 + index}")
        if not is_saved(path):
            lines += reference(f"{path}/2", "/9") + reference(f"{path}/3", "/10")
    for index in range(MANY + len(saved)):
        lines += table("server", port=f"/{100 + index}", rule="console", alias=f"p{index}" if index < MANY else f"q{index - MANY}")
    words = 10 * (MANY - len(saved))
    lines += table("server", port="/9", rule="echo") + table("server", port="/10", rule="feed", config=list(range(words)))
    lines += table("job", kind="checkpoint", at=5000, nester="/", slot=7, image="many")
    return lines + table("job", kind="restore", nester="/", slot=8, image="many", bind=[[slot, slot + len(saved)] for slot in saved])


FILES = {"forty": (cases.TOP / "examples/forty.toml", row), "tree": (cases.FOLDER / "trees/tree.toml", branches),
         "many": (cases.FOLDER / "workers/many.toml", saved_branches)}


def make(name):
    """The file of a name, with the bytes that it has to have."""
    path, body = FILES[name]
    head, _, _ = path.read_text().partition("[[space]]")
    return {path: (head + "\n".join(body()[:-1]) + "\n").encode()}
