"""Texts of programs at random, sound ones and others."""
from .words import OPERATIONS

REGISTERS = [f"r{number}" for number in range(16)]


def blank(dice):
    """What separates two tokens."""
    return dice.choice((" ", " ", " ", ", ", ",", "\t", "  ", " \r", ",,"))


def operand(dice, letter, labels):
    """One operand, mostly a sound one."""
    if letter == "R":
        return dice.choice(REGISTERS if dice.random() < 0.4 else REGISTERS[:4]) if dice.random() < 0.98 else dice.choice(("r16", "r01", "R1", "1", "r", "sp"))
    choice = dice.random()
    if choice < 0.25 and labels:
        return dice.choice(labels)
    if choice < 0.96:
        return str(dice.choice((dice.randint(0, 20), dice.randint(0, 20), dice.randint(-5, 70), -1, 64, 16383, 16384, 4294967295, -2147483648, "007", "-0")))
    return dice.choice(("4294967296", "-2147483649", "+1", "1x", "0x10", "", "nowhere", "aB", "x" * 33, "18446744073709551615", "--1", "_a"))


def text_line(dice, labels, new):
    """One line of a program."""
    out = dice.choice(("", "", " ", "\t"))
    if new is not None and dice.random() < 0.9:
        out += (new if dice.random() < 0.97 else dice.choice(("", "A", "a-b", "x" * 33, "a:", *labels[:1]))) + ":" + dice.choice((" ", " ", "\t"))
    if dice.random() < 0.9:
        name, form = dice.choice(OPERATIONS) if dice.random() < 0.93 else ("word", "N")
        if name in ("jmp", "jlt", "jz", "jnz") and dice.random() < 0.5:
            name, form = "addi", "RRN"
        tokens = [name if dice.random() < 0.99 else dice.choice(("HALT", "nop", "sett", "wörd"))]
        tokens += [operand(dice, letter, labels) for letter in form]
        if dice.random() < 0.01:
            tokens = tokens[:-1] if len(tokens) > 1 and dice.random() < 0.5 else [*tokens, "r1"]
        out += tokens[0] + "".join(blank(dice) + token for token in tokens[1:])
    return out + dice.choice(("", "", "", "", " ", "; note", " ;; x", "\r"))


def text(dice):
    """A program's text."""
    labels = [f"l{number}" for number in range(dice.randint(0, 4))] + ["r1"] * (dice.random() < 0.1)
    count = dice.choice((1, 2, 3, 5, 8, 13, 20, 30))
    places = {dice.randrange(count): label for label in labels}
    lines = [text_line(dice, labels, places.get(index)) for index in range(count)]
    return spoilt(dice, ("\n".join(lines) + dice.choice(("", "\n"))).encode(), 0.04)


def spoilt(dice, octets, chance):
    """Bytes of which some may be changed, taken away or put in."""
    while dice.random() < chance:
        at = dice.randint(0, len(octets))
        put = bytes([dice.choice((dice.randrange(256), 0, 9, 10, 12, 13, 32, 34, 35, 39, 44, 46, 58, 59, 61, 91, 93, 123, 125))])
        octets = dice.choice((octets[:at] + put + octets[at:], octets[:at] + octets[at + 1:], octets[:at] + put + octets[at + 1:]))
    return octets
