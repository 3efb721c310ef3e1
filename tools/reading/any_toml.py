"""TOML documents at random, with all that TOML has and some things that it hasn't.

As a scenario each is refused: by the first rule where it is no document, and else by another.
"""
from .any_text import spoilt

KEYS = ("a", "b", "c", "a-b", "1", '""', "'a'", '"b"', '"\\u0063"', "'x y'")
BAD_KEYS = ("é", "", "a b", "'''a'''", '"\n"')
ESCAPES = ("\\n", "\\t", "\\e", "\\x41", "\\u00e9", "\\U0001F600", '\\"', "\\\\", "\\b", "\\f", "\\r")
BAD_ESCAPES = ("\\q", "\\x4", "\\ud800", "\\U00110000", "\\ ", "\\u12")
NUMBERS = ("0", "+1", "-17", "1_000", "0x1F", "0o17", "0b1", "0xdead_beef", "9223372036854775807", "-9223372036854775808", "1.5", "-0.0", "1e5",
           "6.02E+23", "1_0.2_5e-3", "inf", "-inf", "nan", "+nan")
BAD_NUMBERS = ("01", "1_", "_1", "1__0", "0X1", "+0x1", "9223372036854775808", "-9223372036854775809", "1.", ".5", "1e", "1.e5", "0b2", "0x", "+", "Inf",
               "0xFFFFFFFFFFFFFFFF")
MOMENTS = ("1979-05-27", "1979-05-27T07:32:00Z", "1979-05-27 07:32:00.999-07:00", "1979-05-27t07:32", "07:32:00", "23:59:60", "07:32", "2000-02-29",
           "1979-05-27T07:32z", "00:00:00.000000000001")
BAD_MOMENTS = ("1979-13-01", "1979-00-10", "1979-02-30", "1900-02-29", "24:00:00", "07:60:00", "1979-05-27T", "1979-5-27", "07:32:61", "7:32:00",
               "1979-05-27T07:32:00+24:00", "07:32:00.", "1979-05-27T07:32:00+7:00")


class Document:
    """A document from dice."""

    def __init__(self, dice):
        self.dice = dice
        self.fault = dice.choice((0, 0, 0.05))

    def one(self, sound, bad):
        """One of what is sound, or of what isn't."""
        return self.dice.choice(bad if self.dice.random() < self.fault else sound)

    def gap(self):
        """Blanks."""
        return self.dice.choice(("", "", " ", "\t", "  "))

    def end(self):
        """Within an array or a table: nothing, or the end of a line."""
        return self.dice.choice(("", "", "", " ", "\n", "\r\n ", " # c\n", "\n\n"))

    def key(self):
        """A key of one part or more."""
        return (self.gap() + "." + self.gap()).join(self.one(KEYS, BAD_KEYS) for _ in range(self.dice.choice((1, 1, 1, 2, 3))))

    def string(self):
        """A string."""
        quote = self.dice.choice(("'", '"'))
        several = self.dice.random() < 0.4
        parts = []
        for _ in range(self.dice.randint(0, 4)):
            choice = self.dice.random()
            if choice < 0.5:
                parts.append(self.dice.choice(("a", "é", " ", "#", "\t", "\U0001F600", "'" if quote == '"' else '"')))
            elif choice < 0.7 and quote == '"':
                parts.append(self.one(ESCAPES, BAD_ESCAPES))
            elif choice < 0.9 and several:
                parts.append(self.dice.choice(("\n", "\r\n", quote, quote * 2, "\\\n  " if quote == '"' else "\\", "\n\t")) + "x")
            elif self.dice.random() < self.fault:
                parts.append(self.dice.choice(("\x00", "\x7f", "\r", "\x1f", quote, "\n")))
        body = "".join(parts)
        return quote * 3 + self.dice.choice(("", "\n")) + body + quote * 3 if several else quote + body + quote

    def value(self, depth):
        """A value."""
        choice = self.dice.random()
        if choice < 0.3:
            return self.one(NUMBERS, BAD_NUMBERS)
        if choice < 0.55:
            return self.string()
        if choice < 0.65:
            return self.one(MOMENTS, BAD_MOMENTS)
        if choice < 0.72 or depth > 4:
            return self.one(("true", "false"), ("True", "tru", ""))
        parts = [self.value(depth + 1) if choice < 0.86 else self.pair(depth + 1) for _ in range(self.dice.randint(0, 3))]
        body = ",".join(self.end() + part + self.end() for part in parts) + ("," + self.end() if parts and self.dice.random() < 0.2 else self.end())
        return "[" + body + "]" if choice < 0.86 else "{" + body + "}"

    def pair(self, depth):
        """A key and a value."""
        return f"{self.key()}{self.gap()}={self.gap()}{self.value(depth)}"

    def deep(self):
        """Something about as deep, or as long, as may be."""
        depth = self.dice.choice((78, 79, 80, 81, 82))
        form = self.dice.choice(("array", "table", "both", "key", "heading"))
        if form == "key":
            return ".".join(["a"] * depth) + " = 1"
        if form == "heading":
            return "[" + ".".join(["a"] * depth) + "]"
        opened = ["[" if form == "array" or form == "both" and index % 2 else "{a=" for index in range(depth)]
        return "d = " + "".join(opened) + "1" + "".join("]" if each == "[" else "}" for each in reversed(opened))

    def text(self):
        """All of it."""
        lines = ["budget = 1"] if self.dice.random() < 0.9 else []
        for _ in range(self.dice.randint(0, 5)):
            choice = self.dice.random()
            if choice < 0.04:
                lines.append(self.deep())
            elif choice < 0.7:
                lines.append(self.gap() + self.pair(0) + self.gap() + self.dice.choice(("", "", "# c")))
            elif choice < 0.9:
                lines.append(self.gap() + f"[{self.gap()}{self.key()}{self.gap()}]" + self.dice.choice(("", " # c")))
            else:
                lines.append(f"[[{self.key()}]]")
        mark = self.dice.choice(("", "", "", "\ufeff"))
        text = mark + self.dice.choice(("\n", "\n", "\n", "\r\n", "\n\n")).join(lines) + self.dice.choice(("", "\n"))
        return spoilt(self.dice, text.encode(), self.fault)
