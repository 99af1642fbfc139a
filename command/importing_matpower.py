"""Reads MATPOWER case files, of version 1 (`bus = [`) and version 2 (`mpc.bus = [`).

It reads the matrices of numbers that a file has, and runs no program. Only a bus of type 1 can be of class Z. A
generator makes its bus I, in service or not: it can be started, and the case text would not say so. A DC line makes
both its buses I: it feeds there, and it is no line of the grid. A figure that is no finite number is unknown, and what
is unknown makes the bus I."""
import math
import re

from command.importing_grid import Damaged, Grid, figure, lines_of, shown

# The matrices that are read, and the columns that a row of each has at least.
WIDTHS = {"bus": 13, "gen": 10, "branch": 11, "dcline": 3}
NAMES = "bus_name"

# Columns, counted from 0: a bus's type, the figures that are all zero at a bus of class Z, a branch's status.
BUS_TYPE, BUS_FIGURES = 1, (2, 3, 4, 5)
BRANCH_STATUS = 10

# Types of a bus: a load or nothing, and one that is out of service.
LOAD_BUS, ISOLATED = 1, 4
MOST_NUMBER = 999999999

LOOKS_LIKE = re.compile(r"^\s*(function\b|(\w+\s*\.\s*)?(bus|branch)\s*=\s*\[)", re.MULTILINE)
TOKEN = re.compile(r"\.\.\.|[%'\"\[\]{}();,=]|(?:(?!\.\.\.)[^\s%'\"\[\]{}();,=])+")
BLOCK_OPENS, BLOCK_CLOSES = re.compile(r"\s*%\{\s*"), re.compile(r"\s*%\}\s*")
STRING = {"'": re.compile(r"'((?:[^']|'')*)'"), '"': re.compile(r'"((?:[^"]|"")*)"')}
FIELD = re.compile(r"^\w+\.(?=\w+$)")
PAIRS = {"[": "]", "{": "}", "(": ")"}
OPENING, CLOSING = "[{(", "]})"
SCALING = "/", "*", "./", ".*"
PROGRAM_WORDS = {"if", "for", "while", "switch", "try", "parfor"}


def is_matpower(text):
    return LOOKS_LIKE.search(text) is not None


class Token:
    """A word, a mark of its own, a string, or the end of a line."""

    def __init__(self, kind, text, line):
        self.kind = kind
        self.text = text
        self.line = line

    def is_mark(self, marks):
        return self.kind == "mark" and self.text in marks

    def ends_statement(self):
        return self.kind == "line end" or self.is_mark(";,")


def is_transpose(line, at):
    """A quote directly after a name, a number or a closed bracket is no string."""
    return at > 0 and (line[at - 1].isalnum() or line[at - 1] in "_)]}.'")


def tokens_of_line(line, number):
    """The tokens of a line without its comment. A line that goes on has no line end."""
    at = 0
    while True:
        found = TOKEN.search(line, at)
        if found is None or found.group() == "%":
            break
        text, at = found.group(), found.end()
        if text == "...":
            return
        if text in STRING and not is_transpose(line, found.start()):
            string = STRING[text].match(line, found.start())
            if string is None:
                raise Damaged(number, "the string that begins with %s is not closed" % shown(line[found.start():]))
            at = string.end()
            yield Token("string", string.group(1).replace(text * 2, text), number)
        else:
            yield Token("mark" if text in "[]{}();,=" else "word", text, number)
    yield Token("line end", "", number)


def tokens_of(lines):
    """The tokens of all lines that are in no block comment."""
    opened = []
    for number, line in enumerate(lines, 1):
        if BLOCK_OPENS.fullmatch(line):
            opened.append(number)
        elif opened and BLOCK_CLOSES.fullmatch(line):
            opened.pop()
        elif not opened:
            yield from tokens_of_line(line, number)
    if opened:
        raise Damaged(opened[-1], "the comment that '%{' opens is never closed")


def within(tokens, opening):
    """The tokens after an opened bracket, up to the one that closes it."""
    awaited = [PAIRS[opening.text]]
    for token in tokens:
        if token.is_mark(OPENING):
            awaited.append(PAIRS[token.text])
        elif token.is_mark(CLOSING):
            if token.text != awaited.pop():
                raise Damaged(token.line, "'%s' closes no bracket that is open" % token.text)
            if not awaited:
                return
        yield token
    raise Damaged(opening.line, "the '%s' is never closed" % opening.text)


class Row:
    """A row of a matrix: the line that it begins on, and its numbers."""

    def __init__(self, line):
        self.line = line
        self.numbers = []

    def bus(self, column):
        """The bus number in this column, counted from 0."""
        value = self.numbers[column]
        if not (0 < value <= MOST_NUMBER and value == int(value)):
            raise Damaged(self.line, "column %d: %g is no bus number" % (column + 1, value))
        return int(value)


def rows_of(tokens, name):
    """The rows of a matrix of numbers, from the tokens within its brackets."""
    rows, row = [], None
    for token in tokens:
        if token.kind == "line end" or token.is_mark(";"):
            row = None
        elif token.is_mark(","):
            continue
        else:
            if row is None:
                row = Row(token.line)
                rows.append(row)
            value = figure(token.text) if token.kind == "word" else None
            if value is None:
                raise Damaged(token.line, "%s is no number, in the matrix '%s'" % (shown(token.text), name))
            row.numbers.append(value)
    check_widths(rows, name)
    return rows


def check_widths(rows, name):
    for row in rows:
        width = len(row.numbers)
        if width < WIDTHS[name]:
            raise Damaged(row.line, "a row of '%s' has %d numbers, at least %d are wanted" % (
                name, width, WIDTHS[name]))
        if width != len(rows[0].numbers):
            raise Damaged(row.line, "a row of '%s' has %d numbers, and its first row has %d" % (
                name, width, len(rows[0].numbers)))


class Reader:
    """Goes through the statements of a file and keeps the matrices and the names."""

    def __init__(self, lines):
        self.matrices = {}
        self.names = None
        self.wholes = set()
        self.tokens = tokens_of(lines)

    def read(self):
        for token in self.tokens:
            if token.kind == "word" and token.text in PROGRAM_WORDS:
                raise Damaged(token.line, "'%s' is a program, and import reads matrices only" % token.text)
            if token.is_mark("["):
                self.check_several(token)
            elif token.kind == "word" and token.text != "function":
                self.read_statement(token)
            elif not token.ends_statement():
                self.pass_over(token)
        return self

    def check_several(self, opening):
        """`[x, y] = f(z)`: none of the names on the left is a matrix that is read."""
        for token in within(self.tokens, opening):
            self.check_unchanged(token.line, FIELD.sub("", token.text))
        self.pass_over(next(self.tokens, None))

    def check_unchanged(self, line, name):
        """What a matrix is part of, or is, does not get another value."""
        if name in WIDTHS or name in self.wholes:
            raise Damaged(line, "'%s' is changed by a program, and import reads matrices only" % name)

    def read_statement(self, first):
        """A statement that begins with a word: perhaps `mpc.bus = [`."""
        name = FIELD.sub("", first.text)
        second = next(self.tokens, None)
        if second is not None and second.is_mark("="):
            self.read_value(first, name)
        elif second is not None and second.is_mark("(") and name in WIDTHS:
            self.check_scaling(first, name, second)
        elif second is not None and not second.ends_statement():
            self.pass_over(second)

    def read_value(self, first, name):
        """The right side of `name =`."""
        value = next(self.tokens, None)
        if value is None or value.ends_statement():
            raise Damaged(first.line, "nothing follows %s =" % shown(first.text))
        if name not in WIDTHS and name != NAMES:
            self.check_unchanged(first.line, first.text)
            self.pass_over(value)
            return
        if name in self.matrices or name == NAMES and self.names is not None:
            raise Damaged(first.line, "'%s' is there a second time" % name)
        bracket = "{" if name == NAMES else "["
        if not value.is_mark(bracket):
            raise Damaged(value.line, "%s follows '%s =', and '%s' is wanted" % (shown(value.text), name, bracket))
        self.wholes.update(first.text.split(".")[:-1])
        if name == NAMES:
            self.names = [token.text for token in within(self.tokens, value) if token.kind == "string"]
        else:
            self.matrices[name] = rows_of(within(self.tokens, value), name)
        self.end_statement(name)

    def end_statement(self, name):
        token = next(self.tokens, None)
        if token is not None and not token.ends_statement():
            raise Damaged(token.line, "%s follows the end of '%s'" % (shown(token.text), name))

    def check_scaling(self, first, name, opening):
        """`bus(x) = bus(x) / y`, and with another of SCALING, keeps what is zero. Other changes are a program."""
        sides = (first.text + "(" + self.rest_of_statement(opening)).split("=")
        if len(sides) != 2 or not sides[1].startswith(tuple(sides[0] + sign for sign in SCALING)):
            self.check_unchanged(first.line, name)

    def rest_of_statement(self, opening):
        """The tokens of the rest of a statement, without blanks."""
        texts = []
        depth = 1
        for token in self.tokens:
            if token.is_mark(OPENING):
                depth += 1
            elif token.is_mark(CLOSING):
                depth -= 1
            elif depth == 0 and token.ends_statement():
                return "".join(texts)
            elif token.kind == "line end":
                raise Damaged(opening.line, "a '(' is not closed on its line")
            texts.append(token.text)
        return "".join(texts)

    def pass_over(self, token):
        """The rest of a statement that import does not need, from this token."""
        while token is not None and not token.ends_statement():
            if token.is_mark(OPENING):
                for _ in within(self.tokens, token):
                    pass
            elif token.is_mark(CLOSING):
                raise Damaged(token.line, "'%s' closes no bracket that is open" % token.text)
            token = next(self.tokens, None)


def add_buses(grid, rows, names):
    if names is not None and len(names) != len(rows):
        raise Damaged(rows[0].line, "there are %d buses, and 'bus_name' has %d names" % (len(rows), len(names)))
    for row, name in zip(rows, names or [""] * len(rows)):
        kind = row.numbers[BUS_TYPE]
        if kind not in (1, 2, 3, 4):
            raise Damaged(row.line, "column 2: %g is no type of a bus (1 to 4)" % kind)
        is_zero = kind == LOAD_BUS and all(row.numbers[column] == 0 for column in BUS_FIGURES)
        grid.add_bus(row.line, row.bus(0), name, is_zero)


def add_branches(grid, rows, isolated):
    """A branch at an isolated bus (type 4) is out of service, as MATPOWER takes it."""
    for row in rows:
        status = row.numbers[BRANCH_STATUS]
        if not math.isfinite(status):
            raise Damaged(row.line, "column 11: %g is no status of a branch" % status)
        first, second = row.bus(0), row.bus(1)
        grid.add_branch(row.line, first, second, status != 0 and not isolated & {first, second})


def read(text):
    lines = lines_of(text)
    reader = Reader(lines).read()
    matrices = reader.matrices
    for name in ("bus", "gen", "branch"):
        if name not in matrices:
            raise Damaged(len(lines), "the file ends, and there was no matrix '%s'" % name)
    buses = matrices["bus"]
    if not buses:
        raise Damaged(1, "the matrix 'bus' has no row")
    grid = Grid()
    add_buses(grid, buses, reader.names)
    for row in matrices["gen"]:
        grid.feed(row.line, row.bus(0))
    for row in matrices.get("dcline", []):
        grid.feed(row.line, row.bus(0))
        grid.feed(row.line, row.bus(1))
    add_branches(grid, matrices["branch"], {row.bus(0) for row in buses if row.numbers[BUS_TYPE] == ISOLATED})
    return grid
