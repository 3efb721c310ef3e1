"""The files of cases that are made by this reading.

Of most what is asked stands in the file and in files beside it, as a program chose it once, and what is answered is made. Those that cut
and change an image are made whole of that image, with the pieces of it that they name, and those that cut a record whole of that record.
"""
from . import cases, commands, families, images

BLOCK = 32
# What a word of a page is changed by.
WORD = bytes.fromhex("1122334455667788")
# Where the image of the send is cut for pieces that several cases share.
LENGTHS = (178, 242, 691, 1204, 1205)
SHARED = (178, 691, 1204)
WIDTH = 60

RESTORE = """\
budget = 100000
[[space]]
path = "/"
nester = true
[[object]]
at = "/4"
kind = "port"
[[object]]
at = "/9"
kind = "port"
[[object]]
at = "/11"
kind = "port"
[[job]]
kind = "restore"
nester = "/"
slot = 1
image = "a"
"""


def fields():
    """The image with every kind of field and every tag."""
    return (cases.FOLDER / "images/fields.img").read_bytes()


def send():
    """The image of a thread in the midst of a send: that of the first case of sends.cases."""
    return cases.read(cases.FOLDER / "sends.cases").cases[0].question()[2]["a.img"]


def pieces():
    """The pieces of both, and what is shown of them, by the names of their files."""
    out = {}
    for name, octets, end in (("fields", fields(), None), ("send", send(), 192)):
        for at in range(BLOCK, end or len(octets), BLOCK):
            out[f"images/{name}-{at}.head"] = octets[:at]
            out[f"images/{name}-{at}.tail"] = octets[at:]
        out[f"images/{name}.txt"] = commands.answer(["show", "a"], b"", {"a.img": octets}).output
    # The words of its pages begin in the last of these blocks, of which no byte is changed alone.
    out["images/send-192.tail"] = send()[192:]
    out |= {f"images/send-{at}.img": send()[:at] for at in LENGTHS}
    return out


class Writing:
    """A file of cases about one image, as it grows. Each case but the first asks only what differs from the one before."""

    def __init__(self, name, source=None):
        self.name, self.source, self.words, self.lines = name, source, None, []

    def case(self, title, octets, spelled):
        """A case, by its name, its image and the lines that spell it."""
        words = "show a"
        answer = commands.answer(["show", "a"], b"", {"a.img": octets})
        if self.source is not None:
            answer = commands.answer(["run", "--trace", "t"], self.source, {"a.img": octets})
            words = "run --trace t" if answer.plays is not None else "run"
        self.lines += ["", f"{'case' if self.words is None else 'again'} the {self.name} {title}"]
        if words != self.words:
            self.lines.append("words " + words)
        if self.words is None and self.source is not None:
            self.lines += ["source", *cases.spelled(self.source)]
        self.words = words
        shown = f"images/{self.name}.txt"
        known = (cases.FOLDER / shown).read_bytes()
        told = answer.text()
        if answer.output and answer.output == known:
            told = told[:told.index("output") + 1] + ["<" + shown]
        self.lines += ["file a.img", *spelled, *told]

    def apart(self):
        """The next case asks all anew."""
        self.words = None

    def text(self):
        """Its lines, each case behind an empty one."""
        return "\n".join([*self.lines[1:], ""])


def changed(octets, at, value):
    """Bytes with one changed."""
    return octets[:at] + bytes([value]) + octets[at + 1:]


def in_blocks(name, octets, at):
    """Lines for bytes that differ from an image in one block alone."""
    begin = at // BLOCK * BLOCK
    end = begin + BLOCK
    out = [f"<images/{name}-{begin}.head"] if begin else []
    return out + ["=" + octets[begin:end].hex()] + ([f"<images/{name}-{end}.tail"] if end < len(octets) else [])


def three(value):
    """What a byte is changed to."""
    return value ^ 1, value + 2 & 255, value ^ 255


def one_by_one(octets, end):
    """Places and the values to which each is changed; registers and counters have one."""
    reader = images.Reader(octets)
    reader.image()
    plain = {at for begin, width in reader.plain for at in range(begin, begin + width)}
    return [(at, (octets[at] ^ 0x81,) if at in plain else three(octets[at])) for at in range(end)]


def fields_cut(source=None):
    """Cut at each length."""
    octets, writing = fields(), Writing("fields", source)
    for length in range(len(octets)):
        begin = length // BLOCK * BLOCK
        spelled = ([f"<images/fields-{begin}.head"] if begin else []) + (["=" + octets[begin:length].hex()] if length > begin else [])
        writing.case(f"cut after {length} bytes", octets[:length], spelled)
    return writing.text()


def restored_cut():
    """The same, as the image of a restore."""
    return fields_cut(RESTORE.encode())


def fields_changed():
    """Each byte changed."""
    octets, writing = fields(), Writing("fields")
    writing.case("as they are", octets, ["<images/fields.img"])
    writing.apart()
    for at, values in one_by_one(octets, len(octets)):
        for value in values:
            other = changed(octets, at, value)
            writing.case(f"with {value:02x} at {at}", other, in_blocks("fields", other, at))
    return writing.text()


def restored_changed():
    """Each byte changed once, as the image of a restore."""
    octets, writing = fields(), Writing("fields", RESTORE.encode())
    writing.case("as they are", octets, ["<images/fields.img"])
    for at, values in one_by_one(octets, len(octets)):
        other = changed(octets, at, values[0])
        writing.case(f"with {values[0]:02x} at {at}", other, in_blocks("fields", other, at))
    return writing.text()


def sends_cut():
    """Cut at each length at which sends.cases doesn't cut it."""
    octets, writing = send(), Writing("send")
    asked = {len(case.question()[2]["a.img"]) for case in cases.read(cases.FOLDER / "sends.cases").cases if "cut after" in case.heading}
    for length in range(len(octets)):
        if length not in asked:
            begin = max(at for at in LENGTHS if at <= length)
            rest = octets[begin:length]
            zeros = [f"*{len(rest)} =00"] if rest and not rest.strip(b"\0") else ["=" + rest.hex()] if rest else []
            writing.case(f"cut after {length} bytes", octets[:length], [f"<images/send-{begin}.img", *zeros])
    return writing.text()


def sends_changed():
    """Each byte before its pages changed."""
    octets, writing = send(), Writing("send")
    for at, values in one_by_one(octets, LENGTHS[0]):
        for value in values:
            other = changed(octets, at, value)
            writing.case(f"with {value:02x} at {at}", other, in_blocks("send", other, at))
    return writing.text()


def sends_pages_changed():
    """Each word of its pages changed, and their numbers."""
    octets, writing = send(), Writing("send")
    reader = images.Reader(octets)
    reader.image()
    for begin, width in reader.paged:
        old = octets[begin:begin + width]
        values = [bytes(a ^ b for a, b in zip(old, WORD))] if width == len(WORD) else [bytes([value]) for value in three(old[0])]
        # The number of the first page is changed in sends-changed.
        for value in values if begin >= LENGTHS[0] else ():
            other = octets[:begin] + value + octets[begin + width:]
            head = max(at for at in SHARED if at <= begin)
            spelled = [f"<images/send-{head}.img", *cases.in_hexadecimal(other[head:], WIDTH)]
            writing.case(f"with {value.hex()} at {begin}", other, spelled)
    return writing.text()


def records_cut():
    """A record cut at each length, and replayed with its trace: that of record.cases of which all replays."""
    case = next(case for case in cases.read(cases.FOLDER / "record.cases").cases if case.heading == "case all of it replays")
    words, source, files = case.question()
    lines = [f"words {' '.join(words)}", "source", *cases.spelled(source), "file t.trc", *cases.spelled(files["t.trc"])]
    out = []
    for length in range(len(files["t.rec"])):
        octets = files["t.rec"][:length]
        answer = commands.answer(words, source, {**files, "t.rec": octets})
        out += ["", f"{'again' if length else 'case'} the record cut after {length} bytes", *lines, "file t.rec", *cases.spelled(octets), *answer.text()]
        lines = []
    return "\n".join([*out[1:], ""])


WHOLE = {
    "fields-cut": fields_cut, "fields-changed": fields_changed, "restored-cut": restored_cut, "restored-changed": restored_changed,
    "sends-cut": sends_cut, "sends-changed": sends_changed, "sends-pages-changed": sends_pages_changed,
    "records-cut": records_cut,
}
ANSWERED = (
    "page", "pagers", "plays", "plays-objects", "plays-memory", "plays-messages", "plays-references", "plays-states", "plays-servers", "check", "texts",
    "images", "images-versions", "bytes", "promises", "sends", "replays", "workers-all", "records",
)
NAMES = ("pieces", *ANSWERED, *WHOLE, *families.FILES)


def make(name):
    """The files of a name, each with the bytes that it has to have."""
    if name == "pieces":
        return {cases.FOLDER / path: octets for path, octets in pieces().items()}
    if name in families.FILES:
        return families.make(name)
    path = cases.FOLDER / (name + ".cases")
    file = cases.read(path)
    if name not in WHOLE:
        return {path: file.text(commands.answer).encode()}
    whole = WHOLE[name]()
    # Empty lines say nothing: where the cases are the same, the file stays as it is.
    same = cases.File(whole).spelled() == file.spelled()
    return {path: path.read_bytes() if same else "\n".join([*file.head, whole]).encode()}
