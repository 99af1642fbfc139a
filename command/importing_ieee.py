"""Reads the IEEE common data format: cards with fixed columns, in sections that end with -999.

Only a bus of type 0 can be of class Z. The other types hold a voltage or reactive power, so something is fed there.
A figure that is blank or is no finite number is unknown, and what is unknown makes the bus I."""
import math
import re

from command.importing_grid import Damaged, Grid, figure, lines_of, shown

# The columns, counted from 1: name of the field, first and last column.
NUMBER = ("bus number", 1, 4)
NAME = ("name", 6, 17)
TYPE = ("type", 25, 26)
FIGURES = [
    ("load MW", 41, 49),
    ("load MVAR", 50, 59),
    ("generation MW", 60, 67),
    ("generation MVAR", 68, 75),
    ("shunt G", 107, 114),
    ("shunt B", 115, 122),
]
TAP_BUS = ("tap bus number", 1, 4)
Z_BUS = ("Z bus number", 6, 9)

# The figures' places among the words after column 27, if the card has one word for each field there.
FIRST_FIGURE_COLUMN = 28
FIGURE_WORDS = [2, 3, 4, 5, 10, 11]
WORDS_OF_A_CARD = (13, 14)

BUS_HEADER = re.compile(r"\s*BUS DATA FOLLOWS", re.IGNORECASE)
BRANCH_HEADER = re.compile(r"\s*BRANCH DATA FOLLOWS", re.IGNORECASE)
ANY_HEADER = re.compile(r"\s*[A-Z ]+ FOLLOWS", re.IGNORECASE)
END_OF_SECTION = re.compile(r"\s*-999\b")
END_OF_DATA = re.compile(r"\s*END OF DATA", re.IGNORECASE)
ITEMS = re.compile(r"([0-9]+)\s+ITEMS", re.IGNORECASE)
WHOLE_NUMBER = re.compile("[0-9]+")


def is_common_format(text):
    return any(BUS_HEADER.match(line) or BRANCH_HEADER.match(line) for line in lines_of(text))


def field(card, columns):
    _, first, last = columns
    return card[first - 1:last].strip()


def number_in(line, card, columns):
    """The bus number in these columns; the column after them is blank."""
    name, first, last = columns
    found = field(card, columns)
    if not WHOLE_NUMBER.fullmatch(found) or int(found) == 0:
        raise Damaged(line, "columns %d-%d: %s is no %s" % (first, last, shown(found), name))
    if card[last:last + 1].strip():
        raise Damaged(line, "column %d is not blank, so the %s is not in its columns" % (last + 1, name))
    return int(found)


def figures_of(line, card):
    """The six figures of a bus card; one that is blank is nan."""
    found = []
    for columns in FIGURES:
        word = field(card, columns)
        value = figure(word) if word else math.nan
        if value is None:
            raise Damaged(line, "columns %d-%d: %s is no %s" % (columns[1], columns[2], shown(word), columns[0]))
        found.append(value)
    return found


def check_columns(line, card, figures):
    """A card with one word for each field has the same figures by its columns and by its words."""
    words = card[FIRST_FIGURE_COLUMN - 1:].split()
    if len(words) not in WORDS_OF_A_CARD:
        return
    for at, by_columns, columns in zip(FIGURE_WORDS, figures, FIGURES):
        if figure(words[at]) != by_columns:
            raise Damaged(line, "the %s %s is not in columns %d-%d" % (columns[0], shown(words[at]), *columns[1:]))


def read_bus(grid, line, card):
    number = number_in(line, card, NUMBER)
    kind = field(card, TYPE)
    if kind not in ("", "0", "1", "2", "3"):
        raise Damaged(line, "columns 25-26: %s is no type of a bus (0 to 3)" % shown(kind))
    figures = figures_of(line, card)
    check_columns(line, card, figures)
    is_zero = kind == "0" and all(value == 0 for value in figures)
    grid.add_bus(line, number, field(card, NAME), is_zero)


def read_branch(grid, line, card):
    first = number_in(line, card, TAP_BUS)
    grid.add_branch(line, first, number_in(line, card, Z_BUS), True)


def find_header(lines, header, name):
    """The number of the line with this header, which is there once."""
    found = [number for number, line in enumerate(lines, 1) if header.match(line)]
    if not found:
        raise Damaged(len(lines), "the file ends, and there was no '%s DATA FOLLOWS'" % name)
    if len(found) > 1:
        raise Damaged(found[1], "'%s DATA FOLLOWS' is there a second time" % name)
    return found[0]


def cards_of(lines, header, name):
    """The cards of a section, with the numbers of their lines."""
    cards = []
    for number, card in enumerate(lines[header:], header + 1):
        if END_OF_SECTION.match(card):
            check_count(lines, header, len(cards), number)
            return cards
        if ANY_HEADER.match(card) or END_OF_DATA.match(card):
            raise Damaged(number, "the '-999' that ends the %s data is missing before this line" % name)
        if "\t" in card:
            raise Damaged(number, "a tab is in the card, so its columns cannot be told")
        if card.strip():
            cards.append((number, card))
    raise Damaged(len(lines), "the file ends, and there was no '-999' at the end of the %s data" % name)


def check_count(lines, header, count, line):
    """The header may say how many cards follow. A lost card would be a wrong grid."""
    said = ITEMS.search(lines[header - 1])
    if said and int(said.group(1)) != count:
        raise Damaged(line, "%d cards end here, and line %d says %s items" % (count, header, said.group(1)))


def up_to_the_end(lines):
    """The lines before 'END OF DATA': what follows it is a note."""
    for number, line in enumerate(lines):
        if END_OF_DATA.match(line):
            return lines[:number + 1]
    return lines


def read(text):
    lines = up_to_the_end(lines_of(text))
    buses = find_header(lines, BUS_HEADER, "BUS")
    branches = find_header(lines, BRANCH_HEADER, "BRANCH")
    grid = Grid()
    for line, card in cards_of(lines, buses, "bus"):
        read_bus(grid, line, card)
    if not grid.buses:
        raise Damaged(buses, "there is no bus")
    for line, card in cards_of(lines, branches, "branch"):
        read_branch(grid, line, card)
    return grid
