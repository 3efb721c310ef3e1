"""Files of cases: reading them, keeping their lines, and writing an answer in place of another.

docs/FORMATS.md ("Cases") says what a case is. What is asked, the words, the source and the files, is kept as it stands; what is answered is
written anew only where it means something else.
"""
import pathlib
import re

TOP = pathlib.Path(__file__).resolve().parent.parent.parent
FOLDER = next(folder for folder in (TOP / "cases", TOP / "crates" / "test_commands" / "data") if folder.is_dir())

ANSWERS = ("status", "error", "output", "after", "report", "plays")


def content(line):
    """The bytes for which a line of content stands."""
    mark, rest = line[0], line[1:]
    if mark == "|":
        return rest.encode() + b"\n"
    if mark == ".":
        return rest.encode()
    if mark == "=":
        return bytes.fromhex(rest)
    if mark == "<":
        return ((TOP if rest.startswith("examples/") else FOLDER) / rest).read_bytes()
    times, each = rest.split(" ", 1)
    return int(times) * content(each)


def spelled(octets):
    """Lines of content for some bytes."""
    if not octets:
        return []
    try:
        text = octets.decode("ascii")
    except UnicodeDecodeError:
        text = "\0"
    if re.fullmatch(r"[ -~\n]*", text):
        lines = text.split("\n")
        last = lines.pop()
        return ["|" + line for line in lines] + (["." + last] if last else [])
    return in_hexadecimal(octets)


def in_hexadecimal(octets, width=72, run=16):
    """Lines of bytes in hexadecimal, and of zeros by their number."""
    out = []
    for part in re.findall(rb"\0{%d,}|(?:(?!\0{%d}).)+" % (run, run), octets, re.DOTALL):
        if len(part) >= run and not part.strip(b"\0"):
            out.append(f"*{len(part)} =00")
        else:
            out += ["=" + part[at:at + width].hex() for at in range(0, len(part), width)]
    return out


class Section:
    """A heading and the lines of content beneath it."""

    def __init__(self, heading):
        self.heading, self.lines = heading, []
        self.word, _, self.rest = heading.partition(" ")

    def octets(self):
        """What the content stands for."""
        return b"".join(map(content, self.lines))

    def text(self):
        """Its lines."""
        return [self.heading, *self.lines]


class Answer:
    """How a call ends: status, line, output and files that are changed; or that it makes a run, whose trace plays to the same."""

    def __init__(self, status=0, error=None, output=b"", after=None, plays=None):
        self.status, self.error, self.output, self.after, self.plays = status, error, output, after or {}, plays

    def __eq__(self, other):
        return vars(self) == vars(other)

    def text(self):
        """Its lines."""
        if self.plays is not None:
            return ["plays " + self.plays]
        out = [f"status {self.status}"] + ([f"error {self.error}"] if self.error is not None else [])
        if self.output:
            out += ["output", *spelled(self.output)]
        for name, octets in self.after.items():
            out += ["after " + name, *spelled(octets)]
        return out


class Case:
    """A case: what it asks, by itself and with the one before, and what it answers."""

    def __init__(self, heading, before):
        self.heading, self.sections, self.tail = heading, [], []
        self.before = before if heading.startswith("again ") else None
        self.asked = None

    def question(self):
        """Words, source and files. The cases of a file are asked in their order, so the one before knows its own."""
        self.asked = self.asked or self.gathered()
        return self.asked

    def gathered(self):
        """Those of the case before, and its own."""
        words, source, files = self.before.question() if self.before is not None else ([], b"", {})
        for section in self.sections:
            if section.word == "words":
                words = section.rest.split(" ")
            elif section.word == "word":
                words = [*words, section.rest]
            elif section.word == "source":
                source = section.octets()
            elif section.word == "file":
                files = {**files, section.rest: section.octets()}
        return words, source, files

    def answer(self):
        """What it says that comes of the call."""
        out = Answer()
        for section in self.sections:
            if section.word == "status":
                out.status = int(section.rest)
            elif section.word == "error":
                out.error = section.rest
            elif section.word == "output":
                out.output = section.octets()
            elif section.word == "after":
                out.after[section.rest] = section.octets()
            elif section.word == "plays":
                out.plays = section.rest
        return out

    def text(self, answer):
        """Its lines, with an answer."""
        kept = self.sections
        added = []
        if self.answer() != answer:
            kept = [section for section in self.sections if section.word not in ANSWERS]
            added = answer.text()
        return [self.heading, *(line for section in kept for line in section.text()), *added, *self.tail]


class File:
    """A file of cases: the lines before the first, and the cases."""

    def __init__(self, text):
        self.head, self.cases = [], []
        for line in text.split("\n"):
            self.take(line)

    def take(self, line):
        """The next line."""
        if re.match(r"(case|again) ", line):
            self.cases.append(Case(line, self.cases[-1] if self.cases else None))
        elif not self.cases:
            self.head.append(line)
        elif not line or line.startswith("#") or self.cases[-1].tail:
            self.cases[-1].tail.append(line)
        elif line[0] in "|.=<*":
            self.cases[-1].sections[-1].lines.append(line)
        else:
            self.cases[-1].sections.append(Section(line))

    def spelled(self):
        """All that its cases say, as it is spelled."""
        return [[case.heading, *(section.text() for section in case.sections)] for case in self.cases]

    def text(self, answered):
        """The file with the answers that a function gives to questions."""
        lines = list(self.head)
        for case in self.cases:
            lines += case.text(answered(*case.question()))
        return "\n".join(lines)


def read(path):
    """A file of cases."""
    return File(path.read_text())
