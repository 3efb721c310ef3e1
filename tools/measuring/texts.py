"""Texts of 1 MiB, the most that a command reads: as many entries as it holds."""

MOST = 1_048_576


def filled(head, entry, tail):
    """Between a head and a tail as many entries as there is room for; an entry is a text, or a function that gives one for each number."""
    parts, length = [head], len(head) + len(tail)
    while True:
        part = entry(len(parts) - 1) if callable(entry) else entry
        length += len(part)
        if length > MOST:
            return "".join([*parts, tail]).encode()
        parts.append(part)


def programs():
    return filled("budget=1\n[programs]\n", lambda at: f'p{at}="halt"\n', "")


def objects():
    """Conditions in 200 spaces, which they fill one after the other."""
    spaces = ",".join(f'{{path="/{space}"}}' for space in range(200))
    return filled(f"budget=1\nspace=[{spaces}]\nobject=[", lambda at: f'{{at="/{at // 240}/{at % 240}",kind="cond"}},', "]\n")


def servers():
    """Sums in 100 spaces, each at a port of its own."""
    spaces = ",".join(f'{{path="/{space}"}}' for space in range(100))

    def server(at):
        place = f"/{at // 240}/{at % 240}"
        return f'[[object]]\nat="{place}"\nkind="port"\n[[server]]\nport="{place}"\nrule="sum"\n'

    return filled(f"budget=1\nspace=[{spaces}]\n", server, "")


def pages():
    return filled('budget=1\nspace=[{path="/1",pages=[', "1,", "]}]\n")


def pairs():
    return filled('budget=1\njob=[{kind="restore",at=0,nester="/",slot=1,image="a",bind=[', "[1,2],", "]}]\n")


def arrays():
    return filled("a=", "[", "")


def string():
    return filled('a="', "x", '"')


def path():
    return filled('budget=1\nspace=[{path="', "/1", '"}]')


def lines():
    return filled("", "halt\n", "")


def line_feeds():
    return b"\n" * MOST


def comment():
    return filled(";", "x", "\nhalt\n")


def labels():
    return filled("", lambda at: f"l{at}:\n", "halt\n")
