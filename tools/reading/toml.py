"""TOML 1.1 documents.

`read` gives the top table: dict, list, str, int, float, bool, and `Moment` for dates and times. It refuses what isn't TOML, integers beyond
64 bits with sign, more than 80 values within each other, and keys of more than 80 parts.
"""
import re

NESTINGS = 80
PARTS = 80

# What may stand in strings as it is, by their quotes; in those of several lines ends of lines too.
PLAIN = {quote: re.compile(rf"[^\x00-\x08{ends}\x0b-\x1f\x7f{quote[0]}{escape}]+")
         for quote, ends, escape in (('"', r"\n", r"\\"), ("'", r"\n", ""), ('"""', "", r"\\"), ("'''", "", ""))}
CONTROL = re.compile(r"[\x00-\x08\x0a-\x1f\x7f]")
BARE = re.compile(r"[A-Za-z0-9_-]+")
DECIMAL = re.compile(r"[+-]?(?:0|[1-9](?:_?[0-9])*)")
OTHER_BASE = re.compile(r"0x[0-9A-Fa-f](?:_?[0-9A-Fa-f])*|0o[0-7](?:_?[0-7])*|0b[01](?:_?[01])*")
FLOAT = re.compile(r"[+-]?(?:inf|nan|(?:0|[1-9](?:_?[0-9])*)(?:\.[0-9](?:_?[0-9])*(?:[eE][+-]?[0-9](?:_?[0-9])*)?|[eE][+-]?[0-9](?:_?[0-9])*))")
DATE = r"(?P<year>\d{4})-(?P<month>\d{2})-(?P<day>\d{2})"
TIME = r"(?P<hour>\d{2}):(?P<minute>\d{2})(?::(?P<second>\d{2})(?:\.\d+)?)?"
OFFSET = r"(?:[Zz]|[+-](?P<hours>\d{2}):(?P<minutes>\d{2}))"
MOMENT = re.compile(rf"(?:{DATE}(?:[Tt ]{TIME}{OFFSET}?)?|{TIME.replace('?P<', '?P<only_')})", re.ASCII)
# What stands in a place of a value that is no string, array or table.
WORD = re.compile(r"[A-Za-z0-9_+.:-]+")
ESCAPES = {"b": "\b", "t": "\t", "n": "\n", "f": "\f", "r": "\r", "e": "\x1b", '"': '"', "\\": "\\"}
DIGITS_OF = {"x": 2, "u": 4, "U": 8}


class NoToml(Exception):
    """The bytes are no document."""


class Moment(str):
    """A date, a time, or both."""


class Table(dict):
    """A table as it is read: who has defined it, and whether more may be added."""

    def __init__(self, by):
        super().__init__()
        # "header", "above" (it was named within a header alone), "inline", or the number of the table under which dotted keys made it.
        self.by = by


class Tables(list):
    """An array of tables with headings of their own."""


def read(octets):
    """The top table of a document of bytes. Raises NoToml."""
    try:
        text = octets.decode("utf-8")
    except UnicodeDecodeError:
        raise NoToml("not UTF-8") from None
    return Reader(text[1:] if text.startswith("\ufeff") else text).document()


class Reader:
    """A place in a text."""

    def __init__(self, text):
        self.text, self.at = text, 0
        # How many tables began, so that each has a number.
        self.tables = 0

    def refuse(self, why):
        """This is no document."""
        raise NoToml(f"{why} at {self.at}")

    def here(self):
        """The next character; nothing at the end."""
        return self.text[self.at:self.at + 1]

    def blanks(self):
        """Spaces and tabs."""
        while self.here() and self.here() in " \t":
            self.at += 1

    def newline(self):
        """Whether a line ends here, and then behind its end."""
        for end in ("\n", "\r\n"):
            if self.text.startswith(end, self.at):
                self.at += len(end)
                return True
        return False

    def comment(self):
        """A comment, if one begins here."""
        if self.here() != "#":
            return
        end = self.text.find("\n", self.at)
        end = len(self.text) if end < 0 else end
        line = self.text[self.at:end]
        if end < len(self.text) and line.endswith("\r"):
            line, end = line[:-1], end - 1
        if CONTROL.search(line):
            self.refuse("a control character in a comment")
        self.at = end

    def between(self):
        """Blanks, comments and ends of lines, between values."""
        while True:
            self.blanks()
            self.comment()
            if not self.newline():
                return

    def line_end(self):
        """What may follow in a line, and its end."""
        self.blanks()
        self.comment()
        if self.here() and not self.newline():
            self.refuse("more in a line")

    def document(self):
        """All of it."""
        top = Table("header")
        table, under = top, 0
        while True:
            self.between()
            if not self.here():
                return top
            if self.here() == "[":
                table = self.header(top)
                self.tables += 1
                under = self.tables
            else:
                self.pair(table, under, 0)
            self.line_end()

    def header(self, top):
        """A table's heading, or that of one more table of an array."""
        many = self.text.startswith("[[", self.at)
        self.at += 2 if many else 1
        self.blanks()
        key = self.key()
        self.blanks()
        if not self.text.startswith("]]" if many else "]", self.at):
            self.refuse("a heading that doesn't end")
        self.at += 2 if many else 1
        table = top
        for part in key[:-1]:
            found = table.setdefault(part, Table("above"))
            if isinstance(found, Tables):
                found = found[-1]
            if not isinstance(found, Table) or found.by == "inline":
                self.refuse("a heading within what is no table")
            table = found
        last, found = key[-1], table.get(key[-1])
        if many:
            found = table.setdefault(last, Tables())
            if not isinstance(found, Tables):
                self.refuse("a heading of an array that is none")
            found.append(Table("header"))
            return found[-1]
        if last not in table:
            table[last] = Table("header")
        elif isinstance(found, Table) and found.by == "above":
            found.by = "header"
        else:
            self.refuse("a table twice")
        return table[last]

    def pair(self, table, under, depth):
        """A key and its value go into the table with the number `under`."""
        key = self.key()
        self.blanks()
        if self.here() != "=":
            self.refuse("no =")
        self.at += 1
        self.blanks()
        for part in key[:-1]:
            found = table.setdefault(part, Table(under))
            if not isinstance(found, Table) or found.by not in (under, "above"):
                self.refuse("a dotted key into what is defined elsewhere")
            found.by = under
            table = found
        value = self.value(depth)
        if key[-1] in table:
            self.refuse("a key twice")
        table[key[-1]] = value

    def key(self):
        """The parts of a key."""
        parts = []
        while True:
            if self.here() in ("'", '"') and self.here():
                if self.text.startswith(self.here() * 3, self.at):
                    self.refuse("a key of several lines")
                parts.append(self.string())
            else:
                bare = BARE.match(self.text, self.at)
                if not bare:
                    self.refuse("no key")
                parts.append(bare.group())
                self.at = bare.end()
            if len(parts) > PARTS:
                self.refuse("a key of too many parts")
            behind = self.at
            self.blanks()
            if self.here() != ".":
                self.at = behind
                return parts
            self.at += 1
            self.blanks()

    def value(self, depth):
        """A value; `depth` are the arrays and tables in which it stands."""
        first = self.here()
        if first and first in "'\"":
            return self.string()
        if first in ("[", "{"):
            if depth == NESTINGS:
                self.refuse("too deep")
            self.at += 1
            return self.array(depth + 1) if first == "[" else self.inline(depth + 1)
        moment = MOMENT.match(self.text, self.at)
        word = WORD.match(self.text, self.at)
        if moment and (not word or moment.end() >= word.end()):
            self.at = moment.end()
            return self.moment(moment)
        if not word:
            self.refuse("no value")
        self.at = word.end()
        return self.scalar(word.group())

    def scalar(self, word):
        """A boolean or a number."""
        if word in ("true", "false"):
            return word == "true"
        if DECIMAL.fullmatch(word):
            number = int(word.replace("_", ""))
        elif OTHER_BASE.fullmatch(word):
            number = int(word.replace("_", ""), 0)
        elif FLOAT.fullmatch(word):
            return float(word.replace("_", ""))
        else:
            self.refuse("no number")
        if not -(1 << 63) <= number < 1 << 63:
            self.refuse("an integer of more than 64 bits")
        return number

    def moment(self, found):
        """A date or a time, whose numbers are in range."""
        part = {name.removeprefix("only_"): int(digits) for name, digits in found.groupdict().items() if digits is not None}
        if "month" in part:
            leap = part["year"] % 4 == 0 and (part["year"] % 100 != 0 or part["year"] % 400 == 0)
            days = (31, 29 if leap else 28, 31, 30, 31, 30, 31, 31, 30, 31, 30, 31)
            if not 1 <= part["month"] <= 12 or not 1 <= part["day"] <= days[part["month"] - 1]:
                self.refuse("no day")
        if part.get("hour", 0) > 23 or part.get("minute", 0) > 59 or part.get("second", 0) > 60:
            self.refuse("no time")
        if part.get("hours", 0) > 23 or part.get("minutes", 0) > 59:
            self.refuse("no offset")
        return Moment(found.group())

    def array(self, depth):
        """An array, behind its bracket."""
        out = []
        while True:
            self.between()
            if self.here() == "]":
                break
            out.append(self.value(depth))
            self.between()
            if self.here() != ",":
                break
            self.at += 1
        if self.here() != "]":
            self.refuse("an array that doesn't end")
        self.at += 1
        return out

    def inline(self, depth):
        """A table within a line, behind its brace."""
        table = Table("inline")
        self.tables += 1
        under = self.tables
        while True:
            self.between()
            if self.here() == "}":
                break
            self.pair(table, under, depth)
            self.between()
            if self.here() != ",":
                break
            self.at += 1
        if self.here() != "}":
            self.refuse("a table that doesn't end")
        self.at += 1
        close(table)
        return table

    def string(self):
        """A string of any of the four forms."""
        quote = self.here()
        several = self.text.startswith(quote * 3, self.at)
        self.at += 3 if several else 1
        if several:
            self.newline()
        out = []
        while True:
            plain = PLAIN[quote * 3 if several else quote].match(self.text, self.at)
            if plain:
                out.append(plain.group())
                self.at = plain.end()
            character = self.here()
            if not character:
                self.refuse("a string that doesn't end")
            if character == quote:
                if not several:
                    self.at += 1
                    return "".join(out)
                count = 1
                while count < 5 and self.text.startswith(quote * (count + 1), self.at):
                    count += 1
                self.at += count
                out.append(quote * (count - 3 if count >= 3 else count))
                if count >= 3:
                    return "".join(out)
            elif character == "\\" and quote == '"':
                out.append(self.escape(several))
            elif several and self.newline():
                out.append("\n")
            else:
                self.refuse("a control character in a string")

    def escape(self, several):
        """What stands behind a backslash."""
        self.at += 1
        letter = self.here()
        if letter in ESCAPES and letter:
            self.at += 1
            return ESCAPES[letter]
        if letter in DIGITS_OF and letter:
            digits = self.text[self.at + 1:self.at + 1 + DIGITS_OF[letter]]
            if not re.fullmatch("[0-9A-Fa-f]{%d}" % DIGITS_OF[letter], digits):
                self.refuse("no digits")
            number = int(digits, 16)
            if number > 0x10FFFF or 0xD800 <= number <= 0xDFFF:
                self.refuse("no character")
            self.at += 1 + len(digits)
            return chr(number)
        if several:
            # A backslash at the end of a line leaves out all blanks and ends of lines that follow.
            self.blanks()
            if self.newline():
                while True:
                    self.blanks()
                    if not self.newline():
                        return ""
        self.refuse("no escape")


def close(table):
    """Nothing can be added any more to an inline table, nor to those that dotted keys have made in it."""
    table.by = "inline"
    for value in table.values():
        if isinstance(value, Table) and value.by != "inline":
            close(value)
