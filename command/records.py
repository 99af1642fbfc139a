"""The records of a case text: their fields, and what is wrong with the form of a line."""
import re

from command.limits import LEAST_SEVERAL, MOST_CIRCUITS
from command.speaking import quoted

FIELDS = {
    b"grid": ["n"],
    b"bus": ["number", "class", "site"],
    b"line": ["a", "b"],
    b"pmu": ["number"],
    b"end": [],
}
LEFT_OFF_FOR_ONE = {b"line": "circuits"}
LETTERS = {"class": (b"Z", b"I"), "site": (b"Y", b"N")}
NUMBER = re.compile(rb"0|[1-9][0-9]{0,3}")
BETWEEN_FIELDS = re.compile(rb" *\t *| +")
MARK = b"\xef\xbb\xbf"
WIDE_MARKS = b"\xff\xfe", b"\xfe\xff"


class Mendable(str):
    """Words for what `tidy` mends."""


class Case:
    """What the records of a case text say, as far as they are read. `circuits` has the lines of several, by ends."""

    def __init__(self):
        self.n = None
        self.buses = []
        self.lines = []
        self.circuits = {}
        self.units = []
        self.ended = False

    def take(self, line):
        """Adds the record of a line whose form is right. A bus is its class and its site, and bus 1 comes first."""
        word, *fields = line.split(b"\t")
        if word == b"grid":
            self.n = int(fields[0])
        elif word == b"bus":
            self.buses.append((fields[1].decode(), fields[2].decode()))
        elif word == b"line":
            a, b, *circuits = map(int, fields)
            self.lines.append((a, b))
            if circuits:
                self.circuits[a, b] = circuits[0]
        elif word == b"pmu":
            self.units.append(int(fields[0]))
        else:
            self.ended = True


def read(lines):
    """The case of lines that a program accepted."""
    case = Case()
    for line in lines:
        case.take(line)
    return case


def wrong_number(field):
    """What is wrong with the form of a number, in words; None if nothing is."""
    if NUMBER.fullmatch(field):
        return None
    if not field:
        return "a number is missing: its field is empty"
    if not field.isdigit():
        return "%s is no number" % quoted(field)
    if field.startswith(b"0"):
        return "the number %s has a leading zero" % quoted(field)
    return "the number %s has over 4 digits" % quoted(field)


def wrong_letter(field, kind):
    """What is wrong with a class or a site, in words; None if nothing is."""
    if field in LETTERS[kind]:
        return None
    wanted = " or ".join(letter.decode() for letter in LETTERS[kind])
    if not field:
        return "the %s is missing: its field is empty, and %s is wanted" % (kind, wanted)
    return "the %s %s is wrong: %s is wanted" % (kind, quoted(field), wanted)


def forms(word):
    """The forms of a record with this word: the names of its fields."""
    wanted = FIELDS[word]
    return [wanted, wanted + [LEFT_OFF_FOR_ONE[word]]] if word in LEFT_OFF_FOR_ONE else [wanted]


def wrong_fields(line):
    """What is wrong with the fields after a known word, in words; None if nothing is."""
    word, *fields = line.split(b"\t")
    least, most = forms(word)[0], forms(word)[-1]
    wanted = " or ".join("'%s'" % " ".join([word.decode()] + form) for form in forms(word)) + " is wanted"
    if len(fields) < len(least):
        return "the field '%s' is missing: %s" % (least[len(fields)], wanted)
    if len(fields) > len(most):
        return "there is a field too many, %s: %s" % (quoted(fields[len(most)]), wanted)
    for kind, field in zip(most, fields):
        wrong = wrong_letter(field, kind) if kind in LETTERS else wrong_number(field)
        if wrong:
            return wrong
    return None


def wrong_circuits(count):
    """What is wrong with the number of a line's circuits, in words; None if nothing is."""
    if LEAST_SEVERAL <= count <= MOST_CIRCUITS:
        return None
    words = "the circuits of a line are to be %d to %d, or left off for one, and here is %d"
    words %= LEAST_SEVERAL, MOST_CIRCUITS, count
    return Mendable(words) if count == 1 else words


def wrong_bytes(line, first):
    """What is wrong with a line because of how it was written down, in words; None if nothing is."""
    if first and line.startswith(MARK):
        return Mendable("the text begins with a byte order mark, which is no part of a case text")
    if first and line.startswith(WIDE_MARKS):
        return "the text is in UTF-16, and plain ASCII is wanted"
    if b"\r" in line.rstrip(b"\r"):
        return "there is a carriage return in the line: a line feed ends a line, and nothing else does"
    if line.endswith(b"\r"):
        return Mendable("the line ends with a carriage return, as in CRLF: a line feed alone is wanted")
    if not line:
        return Mendable("the line is empty")
    if not line.strip(b" \t"):
        return Mendable("there are only blanks in the line")
    return wrong_blanks(line)


def wrong_blanks(line):
    """What is wrong with what separates the fields, in words; None if nothing is."""
    squeezed = squeeze(line)
    word = squeezed.split(b"\t")[0]
    if squeezed == line or word not in FIELDS:
        return None
    wrong = "there are blanks in the line" if b" " in line else "there is a tab too many in the line"
    wrong += ": one tab separates two fields, and nothing else does"
    if wrong_fields(squeezed) is None:
        return Mendable(wrong)
    return wrong if b" " in line else None


def squeeze(line):
    """A line with one tab between two fields, and no other blanks.

    A `line` with two numbers keeps an empty field before one of them: a bus may be missing, and the last number may be
    the circuits.
    """
    spaced = BETWEEN_FIELDS.sub(b"\t", line.strip(b" \t"))
    fields = [field for field in spaced.split(b"\t") if field]
    return spaced if fields[:1] == [b"line"] and len(fields) == 3 else b"\t".join(fields)


def wrong_word(line):
    """What is wrong with the first word of a line, in words; None if nothing is."""
    word = line.split(b"\t")[0]
    if word in FIELDS:
        return None
    if not word:
        return "the line begins with a tab: its word is missing"
    if word.lower() in FIELDS:
        return "the word %s is wrong: '%s' has small letters" % (quoted(word), word.lower().decode())
    return "no record begins with %s: the words are grid, bus, line, pmu and end" % quoted(word)
