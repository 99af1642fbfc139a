"""What crates/ask prints for each call, by the references beside this file."""
import reference
import reference_rounds
import reference_sites
import reference_texts
import reports
from reference import Case, Refused

# the calls that write records, and those that write bytes, which are printed on lines of their own
RECORDS, BYTES = ("weave", "read_steps"), ("write_case", "day_report", "plan_report", "rounds_report")


def numbers(buses):
    return "".join(" %d" % b for b in buses)


def buses(s):
    return numbers(sorted(s))


def listed(steps):
    return "".join(" %d%s" % (bus, "".join(map(str, reason))) for bus, reason in steps)


def circuits(case):
    """Each count that the rows do not say: one that is not 1 to a neighbour, or not 0 to another bus."""
    pairs = sorted(set(case.circuits) | {(a, b) for a, row in case.rows.items() for b in row})
    said = [(a, b, case.count(a, b)) for a, b in pairs if case.count(a, b) != (b in case.rows[a])]
    return "".join(", circuits %d %d %d" % count for count in said)


def fields(case):
    """Every field of a case; a row with no bus is left out, and so is a count that the rows say."""
    rows = "".join(", %d to%s" % (b, buses(row)) for b, row in case.rows.items() if row) + circuits(case)
    return ", n %d%s, zero%s, site%s, units%s" % (case.n, rows, buses(case.zero), buses(case.site), buses(case.units))


def reached(seen, finished):
    return buses(seen) + (" finished" if finished else " unfinished")


def bytes_of(text):
    return " written %d, rest kept\n%s" % (len(text), text.decode())


def observed_set(case):
    return buses(reference.observed_set(case))


def observed_rounds(case, room):
    listed, count = reference_rounds.observed_rounds(case, room)
    return " rounds %d, list%s" % (count, numbers(listed))


def firing_figure(case, stated, i, j):
    return " %d" % reference.firing_figure(case, stated, i, j)


def test_step(case, stated, steps):
    reference.test_step(case, stated, steps[0])
    return " allowed"


def derivation(case):
    return listed(reference.derivation(case))


def replay(case, steps):
    return reached(*reference.replay(case, steps))


def weave(case, steps, room):
    written, seen = reference.weave(case, steps, room)
    said = " %d written%s, reached%s, rest kept" % (len(written), listed(written), buses(seen))
    return said + ", replayed" + replay(case, written)


def cross_validate(case):
    return buses(reference_sites.unconfirmed(case))


def place_greedy(case, budget, room):
    return numbers(reference_sites.greedy(case, budget, room))


def place_fewest(case, budget):
    return numbers(reference_sites.fewest(case, budget))


def read_case(text):
    return " read" + fields(reference_texts.read_case(text))


def write_case(case, room):
    return bytes_of(reference_texts.write_case(case, room))


def check_steps(text):
    return " %d" % len(reference_texts.read_steps(text))


def read_steps(text, room):
    steps = reference_texts.read_steps_into(text, room)
    return " %d written%s, rest kept" % (len(steps), listed(steps))


def replay_text(case, text):
    return replay(case, reference_texts.read_steps(text))


def day_report(text, room):
    return bytes_of(reference_texts.fitting(reports.day(text), room))


def plan_report(text, room):
    return bytes_of(reference_texts.fitting(reports.plan(text), room))


def rounds_report(text, room):
    return bytes_of(reference_texts.fitting(reports.rounds(text), room))


def is_unread(call, arguments):
    """Whether a step text that is to be replayed is refused as a text."""
    try:
        return call == "replay_text" and reference_texts.read_steps(arguments[1]) is None
    except Refused:
        return True


def reply(call, *arguments):
    """What is printed after a question's name and a colon, and the refusal's number, or 0."""
    try:
        return globals()[call](*arguments), 0
    except Refused as no:
        text = " refused %d %d" % no.args
        if is_unread(call, arguments):
            text = " unread," + text
        if call == "read_case":
            text += fields(Case(0))
        if call in RECORDS + BYTES:
            text += ", rest kept" + "\n" * (call in BYTES)
        return text, no.args[0]
