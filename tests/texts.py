"""Texts at the limits, and every kind of damage to a text."""
import random

from reference import Case, derivation
from reference_texts import write_case, write_steps

WORDS = b"|0|00|02|07|1|2|8|9|64|65|256|9999|10000|+1|Z|N|end|line".split(b"|")
# what may be after a record: of a line it says circuits, good and bad, and a field too many
ENDINGS = [b""] + [b"\t" + count for count in b"|0|1|2|8|9|10|02|9999|+2|2 |2\t|2\t2|9\t".split(b"|")]
SEVEN = Case(7).drawn(lines=[(1, 2), (2, 3), (3, 4), (3, 7), (4, 5), (5, 6)], zero=[2, 3, 5])
UNIT_AT_3 = SEVEN.drawn(units=[3])
# the same with circuits at four of its six lines, the most and the least that a text says
PARALLEL = UNIT_AT_3.drawn(lines=[(1, 2, 2), (2, 3, 8), (3, 7, 5), (5, 6, 3)])


def full_case():
    """64 buses, 256 lines and 64 units, and one line more that it could have."""
    rng = random.Random(7)
    wires = sorted(rng.sample([(a, b) for a in range(1, 65) for b in range(a + 1, 65)], 257))
    marks = [(rng.choice("ZI"), rng.choice("YN")) for _ in range(64)]
    zero = [b for b, (z, _) in enumerate(marks, 1) if z == "Z"]
    barred = [b for b, (_, y) in enumerate(marks, 1) if y == "N"]
    return Case(64).drawn(lines=wires[:256], zero=zero, barred=barred, units=range(1, 65)), wires[256]


def with_circuits(case, count):
    """The same with N circuits at every line, N the count."""
    return case.drawn(counted=[(a, b, count) for a, b in case.circuits])


def with_line(text, *numbers):
    """The text of a full case with a line more after its lines."""
    return text.replace(b"pmu\t1\n", b"line%s\npmu\t1\n" % b"".join(b"\t%d" % x for x in numbers))


def texts():
    """A small and a full case text, both with and without circuits, and those with a line too many; lists of steps.

    The lists have 5, 1,024 and 1,025 steps.
    """
    full, pair = full_case()
    text, circuits = write_case(full, 8192), write_case(with_circuits(full, 8), 8192)
    many = [(i % 64 + 1, ("Z", i % 63 + 1)) for i in range(1025)]
    return dict(
        seven=write_case(UNIT_AT_3, 8192), parallel=write_case(PARALLEL, 8192), full=text, more=with_line(text, *pair),
        circuits=circuits, circuits_more=with_line(circuits, *pair, 8),
        steps=write_steps(derivation(UNIT_AT_3)), most=write_steps(many[:1024]), many=write_steps(many),
    )


def of_byte(text, i):
    """The text without byte i, and with it doubled, changed, after another byte, and as the end."""
    yield text[:i] + text[i + 1:]
    yield text[:i] + text[i:i + 1] + text[i:]
    for x in (0, 10, 48, 57, 255):
        yield text[:i] + bytes([x]) + text[i + 1:]
    for x in (9, 10, 13, 49, 200):
        yield text[:i] + bytes([x]) + text[i:]
    yield text[:i]


def of_line(text, i):
    """The text with line i doubled, dropped, and swapped with the next."""
    lines = text.splitlines(True)
    yield b"".join(lines[:i + 1] + lines[i:])
    yield b"".join(lines[:i] + lines[i + 1:])
    yield b"".join(lines[:i] + lines[i + 1:i + 2] + lines[i:i + 1] + lines[i + 2:])


def of_record(text, i):
    """The text with line i ended another way: in its place, before it and after it.

    So a pair is given twice, with and without circuits.
    """
    lines = text.splitlines(True)
    fields = b"".join(lines[i:i + 1]).rstrip(b"\n").split(b"\t")
    record = b"\t".join(fields[:3] if fields[0] == b"line" else fields)
    for ending in ENDINGS:
        other = [record + ending + b"\n"]
        yield b"".join(lines[:i] + other + lines[i + 1:])
        yield b"".join(lines[:i] + other + lines[i:])
        yield b"".join(lines[:i + 1] + other + lines[i + 1:])


def of_ends(text, i):
    """The text with the first two numbers of line i turned round, and with other circuits: 3 comes before 4."""
    lines = text.splitlines(True)
    word, *rest = b"".join(lines[i:i + 1]).rstrip(b"\n").split(b"\t")
    for circuits in (rest[2:], [b"2"], [b"8"], [b"9"], [b"1"], [b"02"]):
        record = b"\t".join([word] + rest[1::-1] + circuits) + b"\n"
        yield b"".join(lines[:i] + [record] + lines[i + 1:])


def of_field(text, a):
    """The text with another word in the place of the field that starts at a."""
    e = min(text.find(b"\t", a) % (len(text) + 1), text.find(b"\n", a) % (len(text) + 1))
    for word in WORDS:
        yield text[:a] + word + text[e:]


def of_end(text, x):
    """The text with byte x after it."""
    yield text + bytes([x])


def over(text, limit):
    """The text with more bytes, up to the limit and one above it."""
    for count in (limit, limit + 1):
        yield text.ljust(count, b"x")


def places_of(text):
    """The kinds of damage, each with the places at which it can be."""
    fields = [0] + [i + 1 for i, c in enumerate(text[:-1]) if c in b"\t\n"]
    lines = range(text.count(b"\n") + 1)
    return (
        (of_byte, range(len(text) + 1)), (of_line, lines), (of_record, lines), (of_ends, lines), (of_field, fields),
        (of_end, range(256)),
    )


def damaged(text, limit, rng=None, count=0):
    """Every kind of damage at every byte, line and field; or at so many drawn ones of each."""
    for kind, places in places_of(text):
        for place in places if rng is None else rng.sample(places, min(count, len(places))):
            yield from kind(text, place)
    yield from over(text, limit)
