"""Texts of programs.

Lines are checked in order. In each the label comes first, then the operation and the number of its operands, then these from the left,
and the room last. Labels that no line defines are sought once all lines have been read.
"""
import re

from . import words

ILL_FORMED, BAD_NUMBER, BAD_REGISTER, DEFINED_TWICE, UNDEFINED, NO_ROOM = range(1, 7)
LENGTH = 16384

NAME = re.compile(rb"[a-z][a-z0-9_]{0,31}")
REGISTER = re.compile(rb"r(?:[0-9]|1[0-5])")
DIGITS = re.compile(rb"[0-9]+")
TOKEN = re.compile(rb"[^ \t\r,]+")


class BadText(Exception):
    """The first line that is refused, and the reason."""

    def __init__(self, line, reason):
        super().__init__(line, reason)
        self.line, self.reason = line, reason


def number(token, whole):
    """A number as it stands in its word, `whole` for that of `word`; nothing where it is none."""
    sign, digits = (b"-", token[1:]) if token[:1] == b"-" and not whole else (b"", token)
    if not DIGITS.fullmatch(digits):
        return None
    # Leading zeros are allowed, so digits of any length may be a small number.
    digits = digits.lstrip(b"0") or b"0"
    if len(digits) > 20:
        return None
    value = -int(digits) if sign else int(digits)
    if whole:
        return value if value <= words.ALL else None
    return value & 0xFFFFFFFF if -(1 << 31) <= value <= 0xFFFFFFFF else None


def assemble(text):
    """The words of a text of bytes. Raises BadText."""
    labels, lines = {}, []
    for index, line in enumerate(text.split(b"\n")):
        spelled = line_of(line.split(b";")[0], index + 1, labels, len(lines))
        if spelled is not None:
            if len(lines) == LENGTH:
                raise BadText(index + 1, NO_ROOM)
            lines.append((index + 1, spelled))
    out = []
    for line, (word, label) in lines:
        if label is not None:
            if label not in labels:
                raise BadText(line, UNDEFINED)
            word |= labels[label]
        out.append(word)
    return out


def line_of(line, at, labels, address):
    """A word, and a label whose address is to be added to it; nothing where a line has no word. Notes the line's label."""
    tokens = TOKEN.findall(line)
    if tokens and tokens[0].endswith(b":"):
        name = tokens.pop(0)[:-1]
        if not NAME.fullmatch(name):
            raise BadText(at, ILL_FORMED)
        if name in labels:
            raise BadText(at, DEFINED_TWICE)
        labels[name] = address
    if not tokens:
        return None
    operation, operands = tokens[0], tokens[1:]
    whole = operation == b"word"
    if not whole and operation.decode("latin-1") not in words.NUMBER_OF:
        raise BadText(at, ILL_FORMED)
    code = None if whole else words.NUMBER_OF[operation.decode("latin-1")]
    form = "N" if whole else words.OPERATIONS[code][1]
    if len(operands) != len(form):
        raise BadText(at, ILL_FORMED)
    registers, value, label = [], 0, None
    for letter, token in zip(form, operands):
        if letter == "R":
            if not REGISTER.fullmatch(token):
                raise BadText(at, BAD_REGISTER)
            registers.append(int(token[1:]))
        elif NAME.fullmatch(token):
            label = token
        else:
            value = number(token, whole)
            if value is None:
                raise BadText(at, BAD_NUMBER)
    return (value if whole else words.encode(code, registers, value)), label
