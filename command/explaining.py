"""Says a refusal in words. Its number and its place are the proved program's; only the words are made here."""
import itertools

from command import records
from command.limits import DEFAULT_BUDGET, MOST_BUDGET, MOST_BUSES, MOST_BYTES, MOST_LINES
from command.records import Mendable
from command.refusals import REFUSALS
from command.speaking import counted, quoted


def explain(number, place, text, plan_line=b""):
    """A refusal of the case text in words. A line's number is the text's own; the planning program counts one more."""
    if number == 1:
        return too_long(text, plan_line)
    if number in (10, 11) or (plan_line and place == 1):
        return of_budget(number, plan_line)
    at = place - 1 if plan_line else place
    lines = text.split(b"\n")
    is_open = lines[-1] != b""
    if not is_open:
        lines.pop()
    case = records.read(lines[:at - 1])
    words = of_line(number, case, lines, at, is_open and at == len(lines)) or REFUSALS[number].when
    said = "line %d: %s" % (at, words)
    if at <= len(lines) and lines[at - 1]:
        said += "; the line is " + quoted(lines[at - 1])
    return said + ("; 'wozgrzyt tidy' mends that" if isinstance(words, Mendable) else "")


def too_long(text, plan_line):
    """Refusal 1. The planning program counts the plan line too."""
    if len(text) > MOST_BYTES:
        return "the text is over %s" % counted(MOST_BYTES, "byte")
    return "the text has %s and the plan line %d: together they are over %s" % (
        counted(len(text), "byte"), len(plan_line), counted(MOST_BYTES, "byte"))


def of_budget(number, plan_line):
    """Refusals 10 and 11, and 2 in the plan line."""
    budget = plan_line[len(b"plan\t"):-1]
    if number == 10:
        return "the budget is above %d: it is %s" % (MOST_BUDGET, budget.decode())
    if number == 11:
        return no_addition(budget)
    return "a budget is a number of 0 to %d: %s" % (MOST_BUDGET, records.wrong_number(budget))


def no_addition(budget):
    """Refusal 11; if no budget was given, also what it was and how to ask for more."""
    units = counted(int(budget or DEFAULT_BUDGET), "unit")
    said = "no addition within the budget, %s at most, makes every bus observed" % units
    if budget:
        return said
    return said + "; the budget was %d, since none was given: 'wozgrzyt plan %d' asks for up to %s" % (
        DEFAULT_BUDGET, MOST_BUDGET, counted(MOST_BUDGET, "unit"))


def of_line(number, case, lines, at, is_open):
    """What is wrong with line `at`, after the case that the lines before it say; None if no reason is found."""
    if at > len(lines):
        return nothing_left(case)
    line, *later = lines[at - 1:]
    if case.ended:
        return after_end(line, later)
    if number == 2:
        return of_form(case, line, later, at == 1, is_open)
    word, *fields = line.split(b"\t")
    if word == b"bus" and number == 4:
        return of_next_bus(case, int(fields[0]), later)
    numbers = [int(field) for field in fields[:1 if word == b"bus" else None]]
    return of_range(case, word, numbers) if number == 3 else of_order(case, word, numbers)


def after_end(line, later):
    """Refusal 2 at what follows `end`."""
    if any(records.squeeze(rest.rstrip(b"\r")) for rest in [line] + later):
        return "%s follows 'end', which is to be the last line" % ("something" if line else "an empty line")
    return Mendable("an empty line follows 'end', which is to be the last line")


def nothing_left(case):
    """What is missing if the text ends here."""
    if case.n is None:
        return "the text is empty: 'grid n' is missing"
    if len(case.buses) < case.n:
        return missing_bus(case) + ", and the text ends here"
    return "'end' is missing: the text ends here"


def missing_bus(case):
    """Which bus is missing."""
    return "bus %d is missing: %d of %d were read" % (len(case.buses) + 1, len(case.buses), case.n)


def of_form(case, line, later, first, is_open):
    """Refusal 2 at a line that is there."""
    wrong = records.wrong_bytes(line, first) or records.wrong_word(line) or misplaced(case, line, later)
    wrong = wrong or records.wrong_fields(line)
    if not is_open:
        return wrong
    if wrong:
        return wrong + "; its line feed is missing too, so that the text may be cut off"
    if line == b"end":
        return Mendable("the line feed at the end of the line is missing")
    return "the text breaks off: the line feed at the end of the line is missing, and so is 'end'"


def misplaced(case, line, later):
    """What is wrong with the place of a record with this word, in words; None if nothing is.

    The lines after it say whether the record that is wanted here comes too late or is missing.
    """
    word = line.split(b"\t")[0].decode()
    if case.n is None:
        return None if word == "grid" else late_grid(word, later)
    if word == "grid":
        return "'grid' is here again: it is the first line, and no other"
    if len(case.buses) < case.n:
        return None if word == "bus" else late_bus(case, word, later)
    if word == "bus":
        return "there is a bus too many: 'grid' says %d, and all were read" % case.n
    if word == "line" and case.units:
        return Mendable("a 'line' comes after a 'pmu': every line comes before the first pmu")
    return None


def late_grid(word, later):
    """What is wrong if the first line has another word than `grid`."""
    if word != "end" and comes(b"grid\t", later):
        return Mendable("'grid' comes after a '%s': it is the first line" % word)
    return "'grid n' is missing: it comes before any '%s'" % word


def late_bus(case, word, later):
    """What is wrong if another record comes before the last bus."""
    wanted = len(case.buses) + 1
    if word != "end" and comes(b"bus\t%d\t" % wanted, later):
        return Mendable("bus %d comes after a '%s': every bus comes before it" % (wanted, word))
    return missing_bus(case) + " before this '%s'" % word


def comes(start, later):
    """Whether one of the later lines, up to `end`, begins like this."""
    return any(line.startswith(start) for line in itertools.takewhile(lambda line: line != b"end", later))


def of_range(case, word, numbers):
    """Refusal 3."""
    if word == b"grid":
        return "n is to be 1 to %d, and it is %d" % (MOST_BUSES, numbers[0])
    buses, circuits = numbers[:2], numbers[2:]
    for number in buses:
        if not 1 <= number <= case.n:
            return "a bus number is to be 1 to %d, as 'grid' says, and here is %d" % (case.n, number)
    if word == b"line" and len(case.lines) == MOST_LINES:
        return "this is the %dth line, and a grid has at most %d" % (MOST_LINES + 1, MOST_LINES)
    return records.wrong_circuits(*circuits) if circuits else None


def of_order(case, word, numbers):
    """Refusal 4 at a line or a unit."""
    if word == b"line":
        return of_lines(case, *numbers)
    unit = numbers[0]
    if unit in case.units:
        return "the unit at bus %d is here again" % unit
    if case.units and unit < case.units[-1]:
        return Mendable("the unit at bus %d comes after the one at %d: units rise" % (unit, case.units[-1]))
    return None


def of_next_bus(case, number, later):
    """Refusal 4 at a bus. The lines after it say whether the next bus comes too late or is missing."""
    wanted = len(case.buses) + 1
    if number < wanted:
        return "bus %d is here again: bus %d is the next" % (number, wanted)
    if comes(b"bus\t%d\t" % wanted, later):
        return Mendable("bus %d comes after bus %d: buses rise by one" % (wanted, number))
    return missing_bus(case) + " before this bus %d" % number


def of_lines(case, a, b, *circuits):
    """Refusal 4 at a line."""
    if a == b:
        return "a line joins two different buses, and this one joins bus %d to itself" % a
    if (min(a, b), max(a, b)) in case.lines:
        return "the line of buses %d and %d is here again: several circuits are one line, which says their number" % (
            min(a, b), max(a, b))
    if a > b:
        wanted = " ".join(map(str, (b, a) + circuits))
        return Mendable("the lower bus of a line comes first: 'line %s' is wanted" % wanted)
    if case.lines and (a, b) < case.lines[-1]:
        return Mendable("the line %d %d comes after %d %d: lines rise by a, and then by b" % ((a, b) + case.lines[-1]))
    return None
