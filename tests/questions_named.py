"""The questions that are stored: document 01's grids and examples, grids and lists at a limit, circuits, mistakes."""
import os

import replies
from reference import Case, Refused, derivation, test_step
from reference_texts import read_case, write_case, write_steps
from reports import day, plan, rounds
from texts import PARALLEL, SEVEN, UNIT_AT_3, full_case, texts, with_circuits

CASES = os.path.join(os.path.dirname(os.path.abspath(__file__)), "..", "cases")
PATH = Case(5).drawn(lines=[(1, 2), (2, 3), (3, 4), (4, 5)], zero=[3], units=[1, 5])
ROW = Case(64).drawn(lines=[(b, b + 1) for b in range(1, 64)], zero=range(1, 65))
CHAIN = Case(4).drawn(lines=[(1, 2), (2, 3), (3, 4)], zero=[2, 3])
RING = Case(12).drawn(lines=[(b, b % 12 + 1) for b in range(1, 13)], zero=range(2, 13, 2), units=[1, 7])
PAIR = SEVEN.drawn(units=[1, 4])
INVALID = UNIT_AT_3.drawn(lines=[(8, 1)])


def observed_sets(asker):
    band = Case(64).drawn(lines=[(a, a + k) for a in range(1, 65) for k in (1, 2, 3, 4) if a + k <= 64])
    full = band.drawn(lines=[(1, b) for b in range(10, 20)])
    apart = Case(6).drawn(lines=[(1, 2), (2, 3), (5, 6)])

    def ask(name, case):
        asker.of_case(name, "observed_set", case)

    ask("seven, no unit", SEVEN)
    for u in (2, 3, 4):
        ask("seven, unit at %d" % u, SEVEN.drawn(units=[u]))
    ask("seven, units at 1 and 4", PAIR)
    ask("path", PATH)
    for u in (1, 32, 64):
        ask("row of 64 Z, unit at %d" % u, ROW.drawn(units=[u]))
    ask("apart, unit at 1", apart.drawn(units=[1]))
    ask("apart, unit at 4, which has no line", apart.drawn(units=[4]))
    ask("apart, 4 is Z with no line", apart.drawn(units=[4], zero=[4]))
    ask("apart, unit at 5", apart.drawn(units=[5]))
    ask("256 lines, unit at 1", full.drawn(units=[1]))
    ask("257 lines, unit at 1", full.drawn(units=[1], lines=[(1, 20)]))


def figures(asker):
    star = Case(64).drawn(lines=[(1, b) for b in range(2, 65)])

    def ask(name, case, stated, i, j):
        asker.of_case(name, "firing_figure", case, i, j, stated=stated)

    for i, j in ((3, 7), (3, 2), (2, 1)):
        ask("figure %d to %d" % (i, j), SEVEN, {1, 2, 3}, i, j)
    ask("figure 2 to 1, buses above 7 stated too", SEVEN, {1, 2, 3, 8}, 2, 1)
    ask("star of 64, figure 1 to 2, none stated", star, set(), 1, 2)
    ask("star of 64, figure 1 to 2, all stated", star, set(range(1, 65)), 1, 2)
    ask("star of 64, figure 2 to 1, none stated", star, set(), 2, 1)
    for i, j in ((0, 1), (1, 8), (8, 8), (1, 1), (1, 3)):
        ask("figure %d to %d" % (i, j), SEVEN, set(), i, j)
    ask("figure 8 to 1 of an invalid case", SEVEN.drawn(lines=[(8, 1)]), set(), 8, 1)


def tests(asker):
    def ask(name, case, stated, bus, *reason):
        asker.of_list(name, "test_step", case, [(bus, reason)], stated=stated)

    most = {2, 3, 4, 7}
    for name, stated, bus, *reason in (
        ("3 O in none", set(), 3, "O"), ("2 O in none", set(), 2, "O"), ("2 N 3 in none", set(), 2, "N", 3),
        ("1 N 3 in none", set(), 1, "N", 3), ("2 N 1 in none", set(), 2, "N", 1), ("1 Z 2 in none", set(), 1, "Z", 2),
        ("1 Z 2 in 2", {2}, 1, "Z", 2), ("1 Z 2 in 2 3 4 7", most, 1, "Z", 2),
        ("5 Z 4 in 2 3 4 7, where 4 is I", most, 5, "Z", 4),
        ("6 Z 5 in 2 3 4 7, where 5 is not observed", most, 6, "Z", 5),
        ("3 O in 3", {3}, 3, "O"), ("3 N 8 in 3", {3}, 3, "N", 8), ("3 Z 0 in 3", {3}, 3, "Z", 0),
        ("0 O in 3", {3}, 0, "O"), ("8 O in 3 8", {3, 8}, 8, "O"), ("64 N 3 in 3", {3}, 64, "N", 3),
        ("2 N 3 in 3 8, where 8 is ignored", {3, 8}, 2, "N", 3),
    ):
        ask(name, UNIT_AT_3, stated, bus, *reason)
    ask("0 O of an invalid case", UNIT_AT_3.drawn(half=[(1, 7)]), {3}, 0, "O")


def case_values(asker):
    """Case values that are grids or just are not."""
    six = Case(6)
    for name, case in (
        ("6 buses, unit at 6", six.drawn(units=[6])), ("6 buses, Z at 6", six.drawn(zero=[6])),
        ("6 buses, line 1 to 6", six.drawn(lines=[(1, 6)])), ("6 buses, line 6 to 6", six.drawn(lines=[(6, 6)])),
        ("6 buses, line 1 to 6 seen from 1 alone", six.drawn(half=[(1, 6)])),
        ("6 buses, line 1 to 6 seen from 6 alone", six.drawn(half=[(6, 1)])),
        ("0 buses", Case(0)), ("1 bus", Case(1).drawn(units=[1])),
        ("64 buses, unit at 64", Case(64).drawn(units=[64])), ("65 buses", Case(65)),
        ("6 buses, unit at 7", six.drawn(units=[7])), ("6 buses, unit at 64", six.drawn(units=[64])),
        ("6 buses, Z at 7", six.drawn(zero=[7])), ("6 buses, Z at 64", six.drawn(zero=[64])),
        ("6 buses, site Y at 7", six.drawn(site=[7])), ("6 buses, site Y at 64", six.drawn(site=[64])),
        ("6 buses, line 1 to 7", six.drawn(lines=[(1, 7)])), ("6 buses, line 7 to 64", six.drawn(lines=[(7, 64)])),
        ("6 buses, line 7 to 1 seen from 7 alone", six.drawn(half=[(7, 1)])),
        ("63 buses, unit at 64", Case(63).drawn(units=[64])),
    ):
        asker.of_case(name, "observed_set", case)


def derivations(asker):
    for name, case in (
        ("seven, no unit", SEVEN), ("seven, unit at 2", SEVEN.drawn(units=[2])), ("seven, unit at 3", UNIT_AT_3),
        ("seven, unit at 4", SEVEN.drawn(units=[4])), ("seven, units at 1 and 4", PAIR), ("path", PATH),
        ("row of 64 Z, unit at 1", ROW.drawn(units=[1])), ("ring", RING),
    ):
        asker.of_case(name, "derivation", case)
        asker.of_list(name + ", replayed", "replay", case, derivation(case))
    asker.of_case("invalid case", "derivation", SEVEN.drawn(lines=[(8, 1)]))


def both(asker, name, case, steps, replayed="replay ", woven="weave "):
    asker.of_list(replayed + name, "replay", case, steps)
    asker.of_list(woven + name, "weave", case, steps, 72)


def in_three_places(asker, step):
    good = derivation(UNIT_AT_3)
    for name, at in (("first", 0), ("in the middle", 2), ("last", len(good))):
        steps = good[:at] + [step] + good[at:]
        both(asker, replies.listed([step]) + " " + name, UNIT_AT_3, steps, "replay,", "weave,")


def lists(asker):
    for step in (
        (8, ("O",)), (0, ("N", 3)), (2, ("N", 8)), (2, ("N", 0)), (1, ("Z", 64)),
        (2, ("N", 3)), (3, ("O",)), (2, ("O",)), (2, ("Z", 7)),
        (6, ("O",)), (5, ("N", 3)), (5, ("N", 4)), (1, ("Z", 2)), (5, ("Z", 4)), (6, ("Z", 5)),
    ):
        in_three_places(asker, step)
    both(asker, "7 after 9", UNIT_AT_3, [(2, ("O",)), (8, ("O",))])
    both(asker, "9 after 7", UNIT_AT_3, [(8, ("O",)), (2, ("O",))])
    both(asker, "two steps", UNIT_AT_3, [(3, ("O",)), (4, ("N", 3))])
    both(asker, "no step", UNIT_AT_3, [])
    both(asker, "no step, no unit", SEVEN, [])
    both(asker, "invalid case", INVALID, [(8, ("O",))])


def long_lists(asker):
    good, bad = derivation(UNIT_AT_3), [(8, ("O",))]

    def stretched(steps, count):
        return steps + steps[-1:] * (count - len(steps))

    for name, case, steps, count in (
        (" steps", UNIT_AT_3, good, 1024), (" steps", UNIT_AT_3, good, 1025), (" bad steps", UNIT_AT_3, bad, 1024),
        (" bad steps", UNIT_AT_3, bad, 1025), (" steps of an invalid case", INVALID, good, 1025),
    ):
        both(asker, "%d%s" % (count, name), case, stretched(steps, count))
    most = stretched(good, 1023)
    both(asker, ", bad step 1024", UNIT_AT_3, most + bad, "replay", "weave")
    asker.of_list("weave, false step 1024", "weave", UNIT_AT_3, most + [(6, ("O",))], 72)
    asker.of_list("weave, passed step 1024", "weave", UNIT_AT_3, most + [(2, ("O",))], 72)


def record_rooms(asker):
    good, row = derivation(UNIT_AT_3), ROW.drawn(units=[1])
    for room in (0, 4, 5, 6):
        asker.of_list("weave 5 into %d" % room, "weave", UNIT_AT_3, good, room)
    asker.of_list("weave 5 and a bad step into 0", "weave", UNIT_AT_3, good + [(8, ("O",))], 0)
    for room in (63, 64, 65, 72):
        asker.of_list("weave 64 into %d" % room, "weave", row, derivation(row), room)


def after(x):
    """The number after x of Lehmer's generator."""
    return x * 48271 % 2147483647


def desk_list(case, seed):
    """The list of a desk that takes the allowed ones of 800 drawn steps."""
    n, steps, x = case.n, [], seed
    for _ in range(800):
        y = after(x)
        z = after(y)
        other = z % n + 1
        step = (x % n + 1, [("O",), ("N", other), ("Z", other)][y % 3])
        try:
            test_step(case, {bus for bus, _ in steps}, step)
            steps.append(step)
        except Refused:
            pass
        x = after(z)
    return steps


def shuffled(lists, seed):
    """The lists as one, each in its own order. The turn is of the first desk, from a drawn one on, with a step left."""
    left, steps, x = [list(l) for l in lists] + [[]] * (5 - len(lists)), [], seed
    while any(left):
        x = after(x)
        steps.append(next(left[d % 5] for d in range(x % 5, x % 5 + 5) if left[d % 5]).pop(0))
    return steps


def desks(asker, name, case, count):
    lists = [desk_list(case, d + 1) for d in range(count)]
    for steps in lists:
        asker.of_list("%s, a desk's list:%s, replayed" % (name, replies.listed(steps)), "replay", case, steps)
    for k in range(1, 25):
        steps = shuffled(lists, k)
        asker.of_list("%s, shuffle %d of %d steps" % (name, k, len(steps)), "weave", case, steps, 64)


def shuffles(asker):
    for name, case in (("seven, units at 1 and 4", PAIR), ("ring", RING)):
        desks(asker, name + ", two desks", case, 2)
        desks(asker, name + ", five desks", case, 5)


def read(name):
    with open(os.path.join(CASES, name + ".case"), "rb") as text:
        return read_case(text.read())


def verdicts(asker):
    for name, units in (
        ("no units", []), ("3", [3]), ("3 and 4", [3, 4]), ("2 and 4", [2, 4]), ("1 and 4", [1, 4]),
        ("1 and 3 by an observed neighbour", [1, 3]), ("3 and 5 by an I neighbour", [3, 5]), ("1, 4 and 6", [1, 4, 6]),
    ):
        asker.of_case("verdict, " + name, "cross_validate", SEVEN.drawn(units=units))
    asker.of_case("verdict, three buses with no lines", "cross_validate", Case(3).drawn(units=[1, 2]))
    asker.of_case("verdict, no buses", "cross_validate", Case(0))


def greedy(asker):
    for name, case, budget, room in (
        ("seven with 2", SEVEN, 2, 64), ("seven with 0", SEVEN, 0, 64), ("seven with 64", SEVEN, 64, 64),
        ("seven with 65", SEVEN, 65, 64), ("seven with 3 barred", SEVEN.drawn(barred=[3]), 64, 64),
        ("seven with a unit at 4", SEVEN.drawn(units=[4]), 64, 64), ("seven already observed", PAIR, 64, 64),
        ("seven with no site allowed", SEVEN.drawn(barred=range(1, 8)), 64, 64), ("seven into room for 2", SEVEN, 2, 2),
        ("seven into room for 1", SEVEN, 2, 1), ("ieee14 with 64", read("ieee14"), 64, 64),
        ("ieee30 with 64", read("ieee30"), 64, 64), ("figure 4 with 64", read("source000-fig4"), 64, 64),
        ("no buses", Case(0), 65, 2),
    ):
        asker.of_case("greedy, " + name, "place_greedy", case, budget, room)


def fewest(asker):
    ieee14, ieee30, figure4 = read("ieee14"), read("ieee30"), read("source000-fig4")
    every_i = read("ieee14")
    every_i.zero = set()
    for name, case, budget in (
        ("seven with 2", SEVEN, 2), ("seven with 1", SEVEN, 1), ("seven with 0", SEVEN, 0), ("seven with 8", SEVEN, 8),
        ("seven with 9", SEVEN, 9), ("seven with 1 barred", SEVEN.drawn(barred=[1]), 8),
        ("seven with 1 barred and a unit there", SEVEN.drawn(units=[1], barred=[1]), 8),
        ("seven with a unit at 3", UNIT_AT_3, 8), ("seven already observed, with 0", PAIR, 0),
        ("seven already observed, with 8", PAIR, 8),
        ("seven with no site allowed", SEVEN.drawn(barred=range(1, 8)), 8),
        ("seven already observed, with no site allowed", PAIR.drawn(barred=range(1, 8)), 8),
        ("gadget", read("source000-gadget"), 8), ("figure 4", figure4, 8), ("figure 4 with 4", figure4, 4),
        ("ieee14", ieee14, 8), ("ieee14 with 2", ieee14, 2), ("ieee14 with every bus I", every_i, 8),
        ("ieee30", ieee30, 8), ("ieee30 with 6", ieee30, 6), ("no buses", Case(0), 65),
    ):
        asker.of_case("fewest, " + name, "place_fewest", case, budget)


def out_of_reach(asker):
    """Two grids on which no search that tries every placement ends: 57 buses need 12 units, by an integer program."""
    for name, case in (("ieee57", read("ieee57")), ("64 buses with no lines", Case(64))):
        asker.of_case("fewest, " + name, "place_fewest", case, 8, reply=(" refused 11 0", 11))


def byte_rooms(asker):
    """Each call that writes bytes, into room that is one short, exact and larger, and on an empty text."""
    text = texts()["seven"]

    def rooms(name, call, written, ask):
        for room in (0, len(written) - 1, len(written), len(written) + 1):
            ask("%s into %d" % (name, room), call, room)

    for room in (16400, 0):
        asker.of_case("no case into %d" % room, "write_case", Case(0), room)
    rooms("case", "write_case", text, lambda name, call, room: asker.of_case(name, call, UNIT_AT_3, room))
    for name, call, answer, said in (
        ("day", "day_report", day, text), ("plan", "plan_report", plan, b"plan\t8\n" + text),
        ("rounds", "rounds_report", rounds, text),
    ):
        for room in (11, 12):
            asker.of_text("no %s into %d" % (name, room), call, b"", room)
        rooms(name, call, answer(said), lambda name, call, room: asker.of_text(name, call, said, room))


def text_questions(asker):
    """Texts at the limits, and step texts that are good, that are refused as lists, and that are refused as texts."""
    text = texts()
    for name in ("seven", "full", "more"):
        asker.of_text("read " + name, "read_case", text[name])
    for name in ("steps", "most", "many"):
        asker.of_text("check " + name, "check_steps", text[name])
    for name, room in (("most", 1023), ("most", 1024), ("most", 1025), ("many", 1032)):
        asker.of_text("%s into %d" % (name, room), "read_steps", text[name], room)
    for name, steps, case in (
        ("no step", write_steps([]), UNIT_AT_3),
        ("two steps", write_steps([(3, ("O",)), (4, ("N", 3))]), UNIT_AT_3),
        ("8 O", write_steps([(3, ("O",)), (8, ("O",))]), UNIT_AT_3),
        ("3 O twice", write_steps([(3, ("O",)), (3, ("O",))]), UNIT_AT_3),
        ("1 Z 2", write_steps([(1, ("Z", 2))]), UNIT_AT_3), ("65 O", write_steps([(65, ("O",))]), UNIT_AT_3),
        ("an empty text", b"", UNIT_AT_3), ("an empty text on an invalid case", b"", Case(0)),
        ("8 O on an invalid case", write_steps([(8, ("O",))]), Case(0)), ("steps", text["steps"], UNIT_AT_3),
        ("1024 steps", text["most"], UNIT_AT_3), ("1025 steps", text["many"], UNIT_AT_3),
        ("16384 bytes", text["steps"].ljust(16384, b"x"), UNIT_AT_3),
        ("16385 bytes", text["steps"].ljust(16385, b"x"), UNIT_AT_3),
    ):
        asker.of_text("replay " + name, "replay_text", steps, case=case)


def parallel_circuits(asker):
    """One neighbour is seen, however many circuits its line has."""
    three = Case(3).drawn(lines=[(1, 2), (2, 3, 2)], zero=[2], units=[1])
    fork = Case(4).drawn(lines=[(1, 2), (2, 3, 2), (2, 4)], zero=[2], units=[1])
    chain = Case(4).drawn(lines=[(1, 2, 2), (2, 3, 2), (3, 4, 2)])
    most = with_circuits(full_case()[0], 8)
    for name, call, case in (
        ("bus 2 Z with two circuits to 3, unit at 1", "observed_set", three),
        ("the same derived", "derivation", three),
        ("seven, circuits, unit at 3", "observed_set", PARALLEL),
        ("seven, circuits, derived", "derivation", PARALLEL),
        ("bus 2 Z with eight circuits to 1, unit at 1", "observed_set", three.drawn(lines=[(1, 2, 8), (2, 3)])),
        ("bus 2 Z with two circuits to 3, and with 4", "observed_set", fork),
        ("verdict, one unit with two circuits to its neighbour", "cross_validate", three),
        ("verdict, 1 and 4 of a chain of two circuits", "cross_validate", chain.drawn(units=[1, 4])),
        ("verdict, 1 and 3 of a chain of two circuits", "cross_validate", chain.drawn(units=[1, 3])),
        ("verdict, 3 and 4 of a chain of two circuits", "cross_validate", chain.drawn(units=[3, 4])),
        ("256 lines of eight circuits", "observed_set", most),
    ):
        asker.of_case(name, call, case)
    asker.of_case("256 lines of eight circuits, written", "write_case", most, 16400)
    asker.of_case("figure 2 to 3 by two circuits, 1 and 2 stated", "firing_figure", three, 2, 3, stated={1, 2})
    asker.of_case("figure 2 to 1, two circuits to 3", "firing_figure", three, 2, 1, stated={2})
    asker.of_list("3 Z 2 by two circuits", "test_step", three, [(3, ("Z", 2))], stated={1, 2})
    both(asker, "by two circuits", three, [(1, ("O",)), (2, ("N", 1)), (3, ("Z", 2))])
    asker.of_case("greedy, seven with circuits", "place_greedy", PARALLEL, 64, 64)
    asker.of_case("fewest, seven with circuits", "place_fewest", PARALLEL.drawn(lines=[(4, 5, 7)]), 8)
    asker.of_case("write seven with circuits", "write_case", PARALLEL, 149)
    asker.of_case("write seven with circuits into a byte less", "write_case", PARALLEL, 148)


def miscounted(asker):
    """Case values with a joined pair counted 0 or above 8, another pair counted, or the two ends unlike."""
    six = Case(6).drawn(lines=[(1, 2), (2, 3, 8), (5, 6)], units=[1])

    def ask(name, *counted):
        asker.of_case("6 buses, " + name, "observed_set", six.drawn(counted=counted))
        asker.of_case("6 buses, %s, written" % name, "write_case", six.drawn(counted=counted), 16400)

    ask("1 to 2 counted 1", (1, 2, 1), (2, 1, 1))
    ask("1 to 2 counted 8", (1, 2, 8), (2, 1, 8))
    for count in (0, 9, 10, 12, 15):
        ask("1 to 2 counted %d" % count, (1, 2, count), (2, 1, count))
    ask("1 to 2 counted 2 from 1 alone", (1, 2, 2))
    ask("1 to 2 counted 2 from 2 alone", (2, 1, 2))
    ask("1 to 2 counted 0 from 1 alone", (1, 2, 0))
    ask("1 to 2 counted 9 from 2 alone", (2, 1, 9))
    ask("2 to 3 counted 8 and 7", (3, 2, 7))
    for count in (1, 2, 4, 8, 15):
        ask("1 to 3, which are not joined, counted %d" % count, (1, 3, count), (3, 1, count))
    ask("1 to 3, which are not joined, counted 1 from 1 alone", (1, 3, 1))
    ask("1 to 3, which are not joined, counted 1 from 3 alone", (3, 1, 1))
    ask("1 with itself counted 1", (1, 1, 1))
    ask("6 with itself counted 8", (6, 6, 8))
    for bus in (7, 64):
        ask("1 to %d counted 1" % bus, (1, bus, 1), (bus, 1, 1))
        ask("%d to 1 counted 2 from %d alone" % (bus, bus), (bus, 1, 2))
        ask("%d with itself counted 1" % bus, (bus, bus, 1))
    ask("7 to 64 counted 8", (7, 64, 8), (64, 7, 8))
    for name, case in (
        ("0 buses, 1 with itself counted 1", Case(0).drawn(counted=[(1, 1, 1)])),
        ("64 buses, 63 to 64 of eight circuits", Case(64).drawn(lines=[(63, 64, 8)], units=[64])),
        ("64 buses, 64 with itself counted 8", Case(64).drawn(counted=[(64, 64, 8)])),
        ("63 buses, 63 to 64 counted 1", Case(63).drawn(counted=[(63, 64, 1), (64, 63, 1)])),
        ("6 buses, line 1 to 7 of two circuits", Case(6).drawn(lines=[(1, 7, 2)])),
        ("6 buses, line 6 to 6 of two circuits", Case(6).drawn(lines=[(6, 6, 2)])),
        ("6 buses, line 1 to 6 of two circuits seen from 1 alone", Case(6).drawn(half=[(1, 6, 2)])),
        ("6 buses, line 1 to 6 seen from 1 alone, counted 1 from both",
         Case(6).drawn(half=[(1, 6)], counted=[(6, 1, 1)])),
    ):
        asker.of_case(name, "observed_set", case)


def circuit_texts(asker):
    """Texts that say circuits: each form, range and order of the third number, and the 257th line."""
    text = texts()
    head = b"grid\t3\nbus\t1\tI\tY\nbus\t2\tZ\tY\nbus\t3\tI\tY\n"
    for name in ("parallel", "circuits", "circuits_more"):
        asker.of_text("read " + name, "read_case", text[name])
    for name, said in (
        ("two circuits", "line 1 2;line 2 3 2;pmu 1"), ("eight circuits", "line 1 2 8"),
        ("no circuit", "line 1 2 0"), ("one circuit said", "line 1 2 1"), ("nine circuits", "line 1 2 9"),
        ("ten circuits", "line 1 2 10"), ("9999 circuits", "line 1 2 9999"), ("10000 circuits", "line 1 2 10000"),
        ("circuits with a leading zero", "line 1 2 02"), ("circuits 00", "line 1 2 00"),
        ("circuits with a sign", "line 1 2 +2"), ("a fourth number", "line 1 2 2 2"),
        ("a fourth number after a bad third", "line 1 2 9 2"), ("a trailing tab", "line 1 2 "),
        ("a trailing tab after circuits", "line 1 2 2 "), ("a doubled tab before circuits", "line 1 2  2"),
        ("a falling line of nine circuits", "line 2 1 9"), ("a falling line of one circuit", "line 2 1 1"),
        ("a falling line of two circuits", "line 2 1 2"), ("a falling line of circuits 02", "line 2 1 02"),
        ("two circuits of 1 with itself", "line 1 1 2"), ("two circuits to bus 4", "line 1 4 2"),
        ("a line and again with circuits", "line 1 2;line 1 2 2"), ("circuits and again", "line 1 2 2;line 1 2 2"),
        ("circuits and again without", "line 1 2 2;line 1 2"), ("circuits and others", "line 1 2 2;line 1 2 3"),
        ("circuits and again one", "line 1 2 2;line 1 2 1"), ("circuits that do not rise", "line 1 3 2;line 1 2 8"),
        ("circuits after a unit", "pmu 1;line 1 2 2"), ("a unit with circuits", "pmu 1 2"),
    ):
        lines = "".join(record + "\n" for record in said.split(";") + ["end"]).replace(" ", "\t").encode()
        asker.of_text("read " + name, "read_case", head + lines)
        if name in ("two circuits", "nine circuits"):
            asker.of_text("day with " + name, "day_report", head + lines, 16400)
    for name in (b"\t2", b"\t9", b"\t02", b"\t2\t"):
        line = text["circuits_more"].replace(b"\t8\npmu\t1\n", name + b"\npmu\t1\n")
        asker.of_text("read the 257th line, ended %s" % name.decode().replace("\t", "."), "read_case", line)
    asker.of_text("plan with circuits", "plan_report", b"plan\t2\n" + text["parallel"], 16400)


def plan_alone(asker):
    """Four buses with no line, which need four units: `plan` alone means 3, and the limit is 8."""
    text = write_case(Case(4), 8192)
    for line in (b"plan", b"plan\t3", b"plan\t4", b"plan\t8", b"plan\t9", b"plan\t"):
        asker.of_text("%s of four apart" % line.decode().replace("\t", "."), "plan_report", line + b"\n" + text, 16400)


def in_rounds(asker):
    """Each round is of the set as it stood when the round began, and only rounds that add a bus are listed."""
    star = Case(64).drawn(lines=[(1, b) for b in range(2, 65)], units=[1])
    ladder = Case(8).drawn(lines=[(1, 2), (2, 3), (3, 4), (5, 6), (6, 7), (7, 8), (3, 7)], zero=[2, 3, 6, 7])
    for name, case in (
        ("path of 4, Z at 2 and 3, unit at 1", CHAIN.drawn(units=[1])),
        ("path of 4, Z at 2 and 3, unit at 4", CHAIN.drawn(units=[4])),
        ("path, where no bus is freed", PATH), ("ring", RING),
        ("seven, no unit", SEVEN), ("seven, unit at 3", UNIT_AT_3), ("seven, units at 1 and 4", PAIR),
        ("seven, circuits, unit at 3", PARALLEL), ("star of 64, all in round 1", star),
        ("row of 64 Z, no unit", ROW), ("row of 64 Z, unit at 1", ROW.drawn(units=[1])),
        ("row of 64 Z, unit at 64", ROW.drawn(units=[64])), ("row of 64 Z, unit at 32", ROW.drawn(units=[32])),
        ("row of 64 Z, units at 1 and 64", ROW.drawn(units=[1, 64])),
        ("row of 64 Z, a unit at every bus", ROW.drawn(units=range(1, 65))),
        ("two rows and a line between, unit at 1", ladder.drawn(units=[1])),
        ("two rows and a line between, units at 1 and 5", ladder.drawn(units=[1, 5])),
        ("64 Z buses with no lines, units at 7 and 64", Case(64).drawn(units=[7, 64], zero=range(1, 65))),
        ("ieee14 with units", read("ieee14-placed")), ("ieee30 with units", read("ieee30-placed")),
        ("no buses", Case(0)), ("65 buses", Case(65)), ("a line to a bus above n", INVALID),
        ("1 to 3, which are not joined, counted 1", UNIT_AT_3.drawn(counted=[(1, 3, 1), (3, 1, 1)])),
    ):
        asker.of_case("in rounds, " + name, "observed_rounds", case, 136)


def rooms_for_rounds(asker):
    """Rooms that are too small, exact and larger; an invalid case comes before a room that is too small."""
    for name, case, rooms in (
        ("path of 4", CHAIN.drawn(units=[1]), (0, 1, 2, 3, 6, 7, 8)), ("seven, no unit", SEVEN, (0, 1)),
        ("row of 64 Z", ROW.drawn(units=[1]), (0, 126, 127, 128)), ("invalid case", INVALID, (0, 1)),
        ("a unit at every bus", ROW.drawn(units=range(1, 65)), (64, 65, 66)), ("no buses", Case(0), (0,)),
    ):
        for room in rooms:
            asker.of_case("in rounds, %s into %d" % (name, room), "observed_rounds", case, room)


def rounds_reports(asker):
    """Reports into exact room and into a byte less, and texts that are refused."""
    text = texts()
    for name, case in (
        ("path of 4", CHAIN.drawn(units=[1])), ("seven, no unit", SEVEN), ("row of 64 Z", ROW.drawn(units=[1])),
        ("circuits", PARALLEL),
    ):
        said = write_case(case, 8192)
        for room in (len(rounds(said)) - 1, len(rounds(said))):
            asker.of_text("rounds of %s into %d" % (name, room), "rounds_report", said, room)
    for name, said in (
        ("256 lines of eight circuits", text["circuits"]), ("257 lines", text["more"]), ("65 buses", b"grid\t65\n"),
        ("8193 bytes", text["seven"].ljust(8193, b"x")),
        ("a line that falls", b"grid\t2\nbus\t1\tI\tY\nbus\t2\tI\tY\nline\t2\t1\nend\n"),
    ):
        for room in (8, 772):
            asker.of_text("rounds of %s into %d" % (name, room), "rounds_report", said, room)


def ask_all(asker):
    for questions in (
        observed_sets, figures, tests, case_values, derivations, lists, long_lists, record_rooms, shuffles,
        verdicts, greedy, fewest, out_of_reach, byte_rooms, text_questions, parallel_circuits, miscounted,
        circuit_texts, plan_alone, in_rounds, rooms_for_rounds, rounds_reports,
    ):
        questions(asker)
