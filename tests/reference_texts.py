"""Document 01's case texts and step texts, with document 02's circuits, written from the documents alone."""
import functools

from reference import MOST_BUSES, MOST_CIRCUITS, MOST_LINES, MOST_STEPS, Case, Refused, check

CASE_LIMIT, STEP_LIMIT = 8192, 16384
# a text says the circuits of a line from here on
LEAST_SAID = 2


@functools.lru_cache(maxsize=None)
def number(field):
    """1 to 4 digits, no leading zero except 0 itself; None if the form is wrong."""
    if not 1 <= len(field) <= 4 or any(not 48 <= c <= 57 for c in field):
        return None
    if len(field) > 1 and field[0] == 48:
        return None
    return int(field)


def split_lines(text):
    """The ended lines, and what comes after the last line feed."""
    pieces = text.split(b"\n")
    return pieces[:-1], pieces[-1]


@functools.lru_cache(maxsize=100000)
def case_record(line):
    """The fields of a record of a case text, or None if its form is wrong."""
    word, *rest = line.split(b"\t")
    if word in (b"grid", b"pmu") and len(rest) == 1:
        record = (word, number(rest[0]))
    elif word == b"line" and len(rest) in (2, 3):
        record = (word, *map(number, rest))
    elif word == b"bus" and len(rest) == 3 and rest[1] in (b"Z", b"I") and rest[2] in (b"Y", b"N"):
        record = (word, number(rest[0]), rest[1], rest[2])
    elif word == b"end" and not rest:
        record = (word,)
    else:
        return None
    return None if None in record else record


def read_case(text, first=1):
    """The case of a text whose first line counts as line `first`."""
    if len(text) > CASE_LIMIT:
        raise Refused(1, 0)
    lines, tail = split_lines(text)
    case, buses, wires, units = None, 0, [], []
    for k, line in enumerate(lines, first):
        record = case_record(line)
        if case is None:
            allowed = {b"grid"}
        elif buses < case.n:
            allowed = {b"bus"}
        elif units:
            allowed = {b"pmu", b"end"}
        else:
            allowed = {b"line", b"pmu", b"end"}
        if record is None or record[0] not in allowed:
            raise Refused(2, k)
        # the circuits of a line, and a bus's class and site, are no bus numbers
        word, *numbers = record[: {b"bus": 2, b"line": 3}.get(record[0])]
        circuits = record[3:] if word == b"line" else ()
        if word == b"end":
            if k - first + 1 < len(lines) or tail:
                raise Refused(2, k + 1)
            return case
        highest = MOST_BUSES if word == b"grid" else case.n
        if not all(1 <= b <= highest for b in numbers) or word == b"line" and len(wires) == MOST_LINES:
            raise Refused(3, k)
        if not all(LEAST_SAID <= count <= MOST_CIRCUITS for count in circuits):
            raise Refused(3, k)
        if word == b"grid":
            case = Case(numbers[0])
            case.site = set()
        elif word == b"bus":
            if numbers[0] != buses + 1:
                raise Refused(4, k)
            buses += 1
            case.zero |= {buses} if record[2] == b"Z" else set()
            case.site |= {buses} if record[3] == b"Y" else set()
        elif word == b"line":
            a, b = numbers
            if a >= b or wires and wires[-1] >= (a, b):
                raise Refused(4, k)
            wires.append((a, b))
            case.join(a, b, *circuits)
        else:
            if units and units[-1] >= numbers[0]:
                raise Refused(4, k)
            units.append(numbers[0])
            case.units.add(numbers[0])
    raise Refused(2, first + len(lines))


def lines(rows):
    """Rows of fields as lines, with tabs between the fields."""
    return "".join("\t".join(map(str, row)) + "\n" for row in rows).encode()


def line_row(case, a, b):
    """The fields of a line: one circuit is left off."""
    count = case.count(a, b)
    return ("line", a, b, count) if count >= LEAST_SAID else ("line", a, b)


def write_case(case, room):
    """The text of a case, into room for so many bytes."""
    check(case)
    buses = range(1, case.n + 1)
    rows = [("grid", case.n)]
    rows += [("bus", b, "Z" if b in case.zero else "I", "Y" if b in case.site else "N") for b in buses]
    rows += [line_row(case, a, b) for a in buses for b in sorted(case.rows[a]) if a < b]
    rows += [("pmu", b) for b in sorted(case.units)] + [("end",)]
    return fitting(lines(rows), room)


def fitting(text, room):
    if len(text) > room:
        raise Refused(6, 0)
    return text


@functools.lru_cache(maxsize=100000)
def step_record(line):
    """A step, or None if the form of its line is wrong."""
    word, *rest = line.split(b"\t")
    if word != b"step" or len(rest) != {b"O": 2, b"N": 3, b"Z": 3}.get(rest[1] if len(rest) > 1 else None):
        return None
    named = [number(field) for field in rest[:1] + rest[2:]]
    return None if None in named else (named[0], (rest[1].decode(), *named[1:]))


def read_steps(text):
    if len(text) > STEP_LIMIT:
        raise Refused(1, 0)
    lines, tail = split_lines(text)
    steps = []
    for k, line in enumerate(lines, 1):
        if line == b"end":
            if k < len(lines) or tail:
                raise Refused(2, k + 1)
            return steps
        step = step_record(line)
        if step is None:
            raise Refused(2, k)
        if not all(1 <= b <= MOST_BUSES for b in (step[0],) + step[1][1:]):
            raise Refused(3, k)
        if k > MOST_STEPS:
            raise Refused(12, k)
        steps.append(step)
    raise Refused(2, len(lines) + 1)


def read_steps_into(text, room):
    steps = read_steps(text)
    if len(steps) > room:
        raise Refused(6, 0)
    return steps


def write_steps(steps):
    return lines([("step", bus) + reason for bus, reason in steps] + [("end",)])
