"""The map for the dispatchers. Each verdict in it is a reply of the day report; the case text gives the rest."""
from command import drawing, programs, records
from command.reading import read_text
from command.reporting import one_case, refuse
from command.speaking import Misused, Stop, show, show_text

HEADS = "bus", "class", "site", "unit", "confirmed", "state", "step", "reason"
NOTHING = "-"
DRAWINGS = {"--svg": drawing.svg, "--dot": drawing.dot}


class Map:
    """A grid with what the day report says of it.

    `steps` has for each observed bus the number of its step and its reason, `unconfirmed` the units that no other
    confirms.
    """

    def __init__(self, case, steps, unconfirmed):
        self.case = case
        self.steps = steps
        self.unconfirmed = unconfirmed

    def buses(self):
        """The numbers of all buses."""
        return range(1, self.case.n + 1)

    def dark(self):
        """The buses that are not observed."""
        return [bus for bus in self.buses() if bus not in self.steps]


def main(arguments):
    """Prints the map as a table, or draws it. Answers 0, or 1 after a refusal."""
    draw = table
    if arguments and arguments[0] in DRAWINGS:
        draw = DRAWINGS[arguments[0]]
        arguments = arguments[1:]
    if any(argument in DRAWINGS for argument in arguments):
        raise Misused("'map' takes one of --svg and --dot, and then a case")
    text, said = read_text(one_case("map", arguments))
    words = programs.words_of("day")
    reply = programs.ask("day", words, text)
    if programs.refusal(reply):
        show(reply)
        return refuse(reply, said, text)
    return show_text(draw(observe(text, reply, lambda asked: programs.ask("day", words, asked))))


def observe(text, reply, ask):
    """The map of a case text with this day report. `ask` gives the day report of another text."""
    lines = text.split(b"\n")[:-1]
    case = records.read(lines)
    steps, count = read_report(reply)
    alone = [unit for unit in case.units if is_unconfirmed(unit, count, case, lines, ask)]
    if len(alone) != count:
        raise Stop("the day report counts %d unconfirmed units, and %d were found" % (count, len(alone)))
    return Map(case, steps, alone)


def read_report(reply):
    """What a day report says: for each observed bus the number of its step and its reason; the unconfirmed units."""
    rows = [line.split("\t") for line in reply.decode().splitlines()]
    steps = {int(row[1]): (place, " ".join(row[2:])) for place, row in enumerate(rows[1:-2], 1)}
    verdict = rows[-2]
    return steps, 0 if verdict[1] == "yes" else int(verdict[2])


def is_unconfirmed(unit, count, case, lines, ask):
    """Whether no other unit confirms this one.

    The day report only counts such units. So it is asked for the grid without the unit. If no other unit confirms it,
    no other loses by that, and the count falls by one. If another does, the count cannot fall.
    """
    if count in (0, len(case.units)):
        return count > 0
    left = [line for line in lines if line != b"pmu\t%d" % unit]
    return read_report(ask(b"\n".join(left) + b"\n"))[1] < count


def table(grid):
    """The map as a table, with the dark buses and the unconfirmed units below it, and lines of several circuits."""
    rows = [HEADS] + [row(grid, bus) for bus in grid.buses()]
    widths = [max(len(cells[column]) for cells in rows) for column in range(len(HEADS))]
    right = HEADS.index("bus"), HEADS.index("step")
    lines = []
    for cells in rows:
        padded = [cell.rjust(width) if column in right else cell.ljust(width)
                  for column, (cell, width) in enumerate(zip(cells, widths))]
        lines.append("  ".join(padded).rstrip())
    lines += ["", "dark buses: " + listed(grid.dark()), "unconfirmed units: " + listed(grid.unconfirmed)]
    several = ["%d-%d x%d" % (a, b, count) for (a, b), count in grid.case.circuits.items()]
    lines += ["lines of several circuits: " + listed(several)] if several else []
    return "\n".join(lines) + "\n"


def row(grid, bus):
    """The cells of a bus."""
    sort, site = grid.case.buses[bus - 1]
    unit, confirmed = NOTHING, NOTHING
    if bus in grid.case.units:
        unit, confirmed = "unit", "no" if bus in grid.unconfirmed else "yes"
    place, reason = grid.steps.get(bus, (NOTHING, NOTHING))
    state = "observed" if bus in grid.steps else "DARK"
    return str(bus), sort, site, unit, confirmed, state, str(place), reason


def listed(things):
    """Numbers or words in a line, or 'none'."""
    return ", ".join(map(str, things)) or "none"
