"""The grid that a foreign file says, and the case text of it."""
import re

from command.limits import LEAST_SEVERAL, MOST_BUSES, MOST_CIRCUITS, MOST_LINES
from command.speaking import counted, quoted

FIGURE = re.compile(r"[+-]?([0-9]+\.?[0-9]*|\.[0-9]+)([eEdD][+-]?[0-9]+)?|[+-]?inf|[+-]?nan", re.IGNORECASE)


class Damaged(Exception):
    """The file is wrong at this line."""

    def __init__(self, line, why):
        super().__init__("line %d: %s" % (line, why))


class TooLarge(Exception):
    """The file is right, and no case holds its grid."""


def shown(text):
    """A piece of the file for a message, between quotes."""
    return quoted(text.encode("utf-8", "replace"))


def lines_of(text):
    """The lines, ended by LF, CRLF or CR; what old editors put at the end of a file is no line."""
    lines = re.split("\r\n|\n|\r", text.rstrip("\x1a"))
    return lines[:-1] if lines[-1] == "" else lines


def one_line(name):
    """A bus's name for the side table: one blank between two words, and no character that a terminal would obey."""
    return "".join(c if c.isprintable() else "?" for c in " ".join(name.split()))


def figure(word):
    """The number that a word is, None if it is none. FORTRAN and MATLAB write an exponent with D too."""
    if not FIGURE.fullmatch(word):
        return None
    return float(word.lower() if "n" in word.lower() else re.sub("[dD]", "e", word))


class Bus:
    """A bus of the file: its number and name there, and whether nothing is drawn or fed there."""

    def __init__(self, number, name, is_zero):
        self.number = number
        self.name = name
        self.is_zero = is_zero


class Grid:
    """Buses in the file's order, and how many branches join each pair of them."""

    def __init__(self):
        self.buses = []
        self.left_out = 0
        # The one count of branches in service: {(a, b): how many}, with a below b, by the new numbers. Each pair is
        # one line of the case text, and parallel branches are its circuits.
        self.circuits = {}
        self._new = {}

    def add_bus(self, line, number, name, is_zero):
        if number in self._new:
            raise Damaged(line, "bus %d is there a second time" % number)
        self.buses.append(Bus(number, one_line(name), is_zero))
        self._new[number] = len(self.buses)

    def new_number(self, line, number):
        """The number from 1 of the bus that the file calls `number`."""
        if number not in self._new:
            raise Damaged(line, "there is no bus %d" % number)
        return self._new[number]

    def feed(self, line, number):
        """Something is or may be fed or drawn at this bus."""
        self.buses[self.new_number(line, number) - 1].is_zero = False

    def add_branch(self, line, first, second, in_service):
        ends = self.new_number(line, first), self.new_number(line, second)
        if first == second:
            raise Damaged(line, "a branch joins bus %d to itself" % first)
        if not in_service:
            self.left_out += 1
            return
        pair = min(ends), max(ends)
        self.circuits[pair] = self.circuits.get(pair, 0) + 1

    def all_circuits(self):
        """How many circuits all lines have together."""
        return sum(self.circuits.values())


def check_size(grid):
    if len(grid.buses) > MOST_BUSES:
        raise TooLarge("it has {:,} buses, and a case has at most {}".format(len(grid.buses), MOST_BUSES))
    if len(grid.circuits) > MOST_LINES:
        raise TooLarge("it has {:,} lines, and a case has at most {}".format(len(grid.circuits), MOST_LINES))
    for pair, count in sorted(grid.circuits.items()):
        if count > MOST_CIRCUITS:
            first, second = (grid.buses[new - 1].number for new in pair)
            raise TooLarge("{:,} branches in service join buses {} and {}, and a line has at most {} circuits".format(
                count, first, second, MOST_CIRCUITS))


def case_text(grid):
    """The case text: every site is Y, and there is no unit."""
    records = ["grid\t%d" % len(grid.buses)]
    for new, bus in enumerate(grid.buses, 1):
        records.append("bus\t%d\t%s\tY" % (new, "Z" if bus.is_zero else "I"))
    records += [line_record(pair, count) for pair, count in sorted(grid.circuits.items())]
    return "\n".join(records + ["end", ""])


def line_record(pair, count):
    """The record of a line: its two buses, and the number of its circuits if they are several."""
    return "\t".join(map(str, ("line", *pair, count) if count >= LEAST_SEVERAL else ("line", *pair)))


def names_table(grid):
    """The side table: for each bus its new number, its old number and its name, separated by tabs."""
    rows = ["%d\t%d\t%s\n" % (new, bus.number, bus.name) for new, bus in enumerate(grid.buses, 1)]
    return "".join(rows)


def summary(grid):
    """What was read, in words."""
    words = [counted(len(grid.buses), "bus", "buses"), counted(len(grid.circuits), "line")]
    if grid.all_circuits() > len(grid.circuits):
        words[-1] += " with " + counted(grid.all_circuits(), "circuit")
    if grid.left_out:
        words.append(counted(grid.left_out, "branch", "branches") + " out of service left out")
    return ", ".join(words)
