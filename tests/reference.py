"""Document 01's rules of observation and of steps, and document 02's circuits, on sets of bus numbers.

It is written from the documents alone. The rules see one neighbour, however many circuits the line to it has.
A step is a pair: its bus, and its reason, which is ("O",), ("N", p) or ("Z", w).
"""
import copy
import functools

MOST_BUSES, MOST_LINES, MOST_CIRCUITS, MOST_STEPS = 64, 256, 8, 1024


class Refused(Exception):
    """A refusal: its number and its place."""


class Case:
    """A case value: n; the buses that each bus sees a line to; the circuits; the Z buses, the Y sites and the units.

    `circuits` has how many circuits bus a counts to bus b, at (a, b); a pair that it does not have is counted 0.
    Any number may be n, any bus from 1 to 64 may be in the rest, and any number from 0 to 15 may be a count.
    A case is not changed after the first call.
    """

    def __init__(self, n):
        self.n = n
        self.rows = {b: set() for b in range(1, 65)}
        self.circuits = {}
        self.zero, self.site, self.units = set(), set(range(1, n + 1) if n <= 64 else ()), set()

    def count(self, a, b):
        """The circuits from a to b, as seen from a."""
        return self.circuits.get((a, b), 0)

    def see(self, a, b, circuits=1):
        """Bus a sees a line to bus b, and counts its circuits."""
        self.rows[a].add(b)
        self.circuits[a, b] = circuits

    def join(self, a, b, circuits=1):
        """A line, seen from both ends."""
        self.see(a, b, circuits)
        self.see(b, a, circuits)

    def drawn(self, lines=(), half=(), counted=(), zero=(), site=(), barred=(), units=()):
        """The same with more lines, halves of lines, counts, Z buses, Y sites, N sites and units.

        A line is a pair, or a pair and its circuits. A count is a pair and its circuits, as seen from the first bus.
        """
        case = copy.deepcopy(self)
        for line in lines:
            case.join(*line)
        for line in half:
            case.see(*line)
        case.circuits.update({(a, b): circuits for a, b, circuits in counted})
        case.zero |= set(zero)
        case.site = (case.site | set(site)) - set(barred)
        case.units |= set(units)
        return case


def is_counted(case):
    """A joined pair has 1 to 8 circuits, any other pair has none, and the two ends are alike."""
    joined = {(a, b) for a, row in case.rows.items() for b in row}
    if any(not 1 <= case.count(a, b) <= MOST_CIRCUITS for a, b in joined):
        return False
    if any(count != 0 for pair, count in case.circuits.items() if pair not in joined):
        return False
    return all(case.count(a, b) == case.count(b, a) for a, b in case.circuits)


@functools.lru_cache(maxsize=1)
def is_grid(case):
    n, rows = case.n, case.rows
    if not 1 <= n <= MOST_BUSES or any(b > n for b in case.zero | case.site | case.units):
        return False
    if any(a not in rows[b] or a == b or a > n or b > n for a in rows for b in rows[a]):
        return False
    if not is_counted(case):
        return False
    return sum(len(row) for row in rows.values()) // 2 <= MOST_LINES


def check(case):
    if not is_grid(case):
        raise Refused(5, 0)


def spread(case, seen):
    """These buses, and all that rule O2 gives from them."""
    seen = set(seen)
    changed = True
    while changed:
        changed = False
        for w in case.zero & seen:
            unknown = case.rows[w] - seen
            if len(unknown) == 1:
                seen |= unknown
                changed = True
    return seen


def observed(case, units):
    """All that units at these buses observe."""
    return spread(case, set(units).union(*(case.rows[u] for u in units)))


def observed_set(case):
    check(case)
    return observed(case, case.units)


def firing_figure(case, stated, i, j):
    check(case)
    if not (1 <= i <= case.n and 1 <= j <= case.n):
        raise Refused(7, 0)
    row = case.rows[i]
    if j not in row:
        raise Refused(13, 0)
    seen = {b for b in stated if b <= case.n}
    return 1 - len(row) + (i in seen) + len((row & seen) - {j})


def holds(case, seen, step):
    """Whether the reason of a step that names buses of the grid holds."""
    bus, reason = step
    if reason[0] == "O":
        return bus in case.units
    by = reason[1]
    if bus not in case.rows[by]:
        return False
    if reason[0] == "N":
        return by in case.units
    return by in case.zero and by in seen and case.rows[by] - {bus} <= seen


def check_buses(case, place, step):
    bus, reason = step
    if not all(1 <= b <= case.n for b in (bus,) + reason[1:]):
        raise Refused(7, place)


def take_step(case, seen, place, step):
    """Adds the bus of an allowed step to the set."""
    check_buses(case, place, step)
    if step[0] in seen:
        raise Refused(8, place)
    if not holds(case, seen, step):
        raise Refused(9, place)
    seen.add(step[0])


def test_step(case, stated, step):
    check(case)
    take_step(case, {b for b in stated if b <= case.n}, 1, step)


def reasons(case, bus):
    """The reasons that can hold for a bus of a grid, in document 01's order."""
    near = sorted(case.rows[bus])
    return [("O",)] + [("N", p) for p in near] + [("Z", w) for w in near]


def next_step(case, seen):
    """The first allowed step for the lowest bus that any rule reaches; or None."""
    for bus in range(1, case.n + 1):
        if bus not in seen:
            for reason in reasons(case, bus):
                if holds(case, seen, (bus, reason)):
                    return bus, reason
    return None


def derivation(case):
    check(case)
    steps, seen = [], set()
    while (step := next_step(case, seen)) is not None:
        steps.append(step)
        seen.add(step[0])
    return steps


def check_list(case, steps):
    check(case)
    if len(steps) > MOST_STEPS:
        raise Refused(12, 0)


def replay(case, steps):
    """The set reached, and whether the list is finished."""
    check_list(case, steps)
    seen = set()
    for place, step in enumerate(steps, 1):
        take_step(case, seen, place, step)
    return seen, next_step(case, seen) is None


def weave(case, steps, room):
    """The list that is written into so many records, and the set reached."""
    check_list(case, steps)
    seen, written = set(), []
    for place, step in enumerate(steps, 1):
        check_buses(case, place, step)
        if step[0] not in seen:
            take_step(case, seen, place, step)
            written.append(step)
    if len(written) > room:
        raise Refused(6, 0)
    return written, seen
