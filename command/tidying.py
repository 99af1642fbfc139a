"""Puts a case text right that is nearly right, without changing what it says of the grid."""
from command import programs, records
from command.explaining import explain
from command.limits import MOST_BUSES, MOST_LINES
from command.reading import read_text
from command.reporting import one_case
from command.speaking import counted, quoted, say, show

MOST_UNTIDY_BYTES = 65536
BLANKS = b" \t\r"
ORDER = [b"grid", b"bus", b"line", b"pmu", b"end"]


class Unmendable(Exception):
    """The text has a fault that is not `tidy`'s to mend. Its words say which."""


def main(arguments):
    """Prints the case text put right, and says what was changed. Answers 0, or 1 if something else is wrong with it."""
    text, said = read_text(one_case("tidy", arguments), MOST_UNTIDY_BYTES + 1)
    words = programs.words_of("day")
    try:
        tidied, changes = (text, []) if is_valid(text, words) else tidy(text)
        reply = programs.ask("day", words, tidied)
        if programs.refusal(reply):
            raise Unmendable("still refused, put in order: " + explain(*programs.refusal(reply), tidied))
    except Unmendable as fault:
        say("%s: %s" % (said, fault))
        return 1
    show(tidied)
    for change in changes or ["nothing to change, the text is valid"]:
        say("%s: %s" % (said, change))
    return 0


def is_valid(text, words):
    """Whether the day report accepts a text as it is."""
    return programs.refusal(programs.ask("day", words, text)) is None


def tidy(text):
    """The text put right, and what was changed, in words."""
    if len(text) > MOST_UNTIDY_BYTES:
        raise Unmendable("the text is over %s, too long for a case text" % counted(MOST_UNTIDY_BYTES, "byte"))
    changes = []
    rows = fields_of(text, changes)
    check_forms(rows)
    rows = in_order(rows, changes)
    check_numbers(rows)
    return b"".join(b"\t".join(fields) + b"\n" for _, fields in rows), changes


def fields_of(text, changes):
    """The lines that are not empty: the number of each, and its fields. What was changed is added to the changes."""
    if text.startswith(records.MARK):
        text = text[len(records.MARK):]
        changes.append("the byte order mark is dropped")
    lines = text.split(b"\n")
    if lines[-1].strip(BLANKS):
        changes.append("the line feed at the end of the last line is added")
    elif not lines[-1]:
        lines.pop()
    ended = [line.rstrip(b"\r") for line in lines]
    squeezed = [records.squeeze(line) for line in ended]
    note(changes, sum(a != b for a, b in zip(lines, ended)), "carriage returns are dropped at the end of %s")
    note(changes, sum(b"" != b != a for a, b in zip(ended, squeezed)), "blanks become one tab between two fields in %s")
    note(changes, squeezed.count(b""), "%s without a record left out")
    return [(at, line.split(b"\t")) for at, line in enumerate(squeezed, 1) if line]


def note(changes, count, words):
    """Adds to the changes one that was made in so many lines, if there were any."""
    if count:
        changes.append(words % counted(count, "line"))


def check_forms(rows):
    """Stops at the first line that is no record, and at what follows `end`."""
    for at, fields in rows:
        line = b"\t".join(fields)
        wrong = records.wrong_bytes(line, at == 1) or records.wrong_word(line) or records.wrong_fields(line)
        if wrong:
            raise Unmendable("line %d: %s; the line is %s" % (at, wrong, quoted(line)))
    if not rows:
        raise Unmendable("the text is empty")
    ends = [at for at, fields in rows if fields == [b"end"]]
    if not ends:
        raise Unmendable("'end' is missing: the text may be cut off")
    after = [at for at, _ in rows if at > ends[0]]
    if after:
        raise Unmendable("line %d: something follows 'end', which is to be the last line" % after[0])


def in_order(rows, changes):
    """The records in their order, each line's lower bus first, and one circuit left off."""
    written = [(at, leave_off(fields)) for at, fields in rows]
    note(changes, sum(a != b for a, b in zip(rows, written)), "the circuits, 1, are left off in %s")
    turned = [(at, turn(fields)) for at, fields in written]
    note(changes, sum(a != b for a, b in zip(written, turned)), "the lower bus is put first in %s")
    ordered = sorted(turned, key=lambda row: (ORDER.index(row[1][0]), numbers_of(row[1])))
    if ordered != turned:
        changes.append("the records are put in order")
    return ordered


def leave_off(fields):
    """A record's fields, without the circuits of a line that has one."""
    return fields[:3] if fields[0] == b"line" and fields[3:] == [b"1"] else fields


def turn(fields):
    """A record's fields, with the lower bus of a line first."""
    if fields[0] == b"line" and int(fields[1]) > int(fields[2]):
        return [fields[0], fields[2], fields[1], *fields[3:]]
    return fields


def numbers_of(fields):
    """The numbers of a record by which it is put in order: the buses of a line without its circuits."""
    return [int(field) for field in fields[1:2 if fields[0] == b"bus" else 3]]


def check_numbers(rows):
    """Stops if a record is missing, is there twice or is out of range. Such a text could mean one thing or another."""
    if rows[0][1][0] != b"grid":
        raise Unmendable("'grid n' is missing")
    check_twice(rows)
    at, most = rows[0][0], int(rows[0][1][1])
    if not 1 <= most <= MOST_BUSES:
        raise Unmendable("line %d: n is to be 1 to %d, and it is %d" % (at, MOST_BUSES, most))
    for at, fields in rows[1:]:
        numbers = numbers_of(fields)
        outside = [number for number in numbers if not 1 <= number <= most]
        if outside:
            raise Unmendable("line %d: a bus number is to be 1 to %d, and here is %d" % (at, most, outside[0]))
        if fields[0] == b"line":
            check_line(at, *map(int, fields[1:]))
    check_counts(rows, most)


def check_line(at, a, b, *circuits):
    """Stops if a line joins a bus to itself, or if its circuits are out of range."""
    if a == b:
        raise Unmendable("line %d: this line joins bus %d to itself" % (at, a))
    wrong = records.wrong_circuits(*circuits) if circuits else None
    if wrong:
        raise Unmendable("line %d: %s" % (at, wrong))


def check_twice(rows):
    """Stops if a record is there twice. A second `grid`, `bus` or `line` need not say the same as the first."""
    known = {}
    for at, fields in rows:
        key = fields[0].decode(), *([] if fields[0] == b"grid" else numbers_of(fields))
        if key in known:
            first, second = sorted((known[key], at))
            raise Unmendable("lines %d and %d: '%s' is there twice" % (first, second, " ".join(map(str, key))))
        known[key] = at


def check_counts(rows, most):
    """Stops if a bus is missing, or if there are too many lines."""
    buses = [numbers_of(fields)[0] for _, fields in rows if fields[0] == b"bus"]
    gone = [bus for bus in range(1, most + 1) if bus not in buses]
    if gone:
        raise Unmendable("bus %d is missing: there are %d of %d" % (gone[0], len(buses), most))
    lines = sum(fields[0] == b"line" for _, fields in rows)
    if lines > MOST_LINES:
        raise Unmendable("there are %d lines, and a grid has at most %d" % (lines, MOST_LINES))
