"""Document 02's observation in rounds, on sets of bus numbers.

It is written from the documents alone, and calls no other observation. Each round looks at all buses against the set as
it stood when the round began, and adds everything that the rules give.
"""
from reference import Refused, check


def frees(case, begun, w, bus):
    """Whether w is an observed Z bus, and all its neighbours but this one are observed."""
    return w in case.zero and w in begun and all(b in begun for b in case.rows[w] if b != bus)


def is_given(case, begun, bus):
    """Whether a rule gives the bus in a round that began with this set."""
    if bus in begun:
        return False
    if bus in case.units or any(p in case.units for p in case.rows[bus]):
        return True
    return any(frees(case, begun, w, bus) for w in case.rows[bus])


def rounds(case):
    """The rounds that add a bus, in order, each as its buses, rising."""
    check(case)
    listed, begun = [], frozenset()
    while new := [bus for bus in range(1, case.n + 1) if is_given(case, begun, bus)]:
        listed.append(new)
        begun = begun.union(new)
    return listed


def numbers(listed):
    """The rounds as numbers: of each how many buses it adds, and these."""
    return [number for buses in listed for number in (len(buses), *buses)]


def observed_rounds(case, room):
    """The numbers that are written into room for so many, and how many rounds there are."""
    listed = rounds(case)
    if len(numbers(listed)) > room:
        raise Refused(6, 0)
    return numbers(listed), len(listed)
