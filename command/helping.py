"""What the command says of itself: help, and its version."""
from command import building, places, programs
from command.speaking import Misused, Stop, named, show_text

USAGE = """\
usage: wozgrzyt day [CASE]                which buses are observed, and why
       wozgrzyt plan [BUDGET] [CASE]      where the fewest new units would do, within a budget of 0 to 8 (3 if none)
       wozgrzyt rounds [CASE]             in which rounds the buses are observed, for the trainer
       wozgrzyt map [--svg|--dot] [CASE]  a table of all buses for the dispatchers, or a drawing of them
       wozgrzyt tidy [CASE]               a case text that is nearly right, put right
       wozgrzyt import FILE               a case text from a MATPOWER file or the IEEE common data format
       wozgrzyt refusal [NUMBER]          what a refusal says, its place, and who gives it
       wozgrzyt help [COMMAND]            this, or more of a command; 'help case' says what a case text is
       wozgrzyt --version                 the project's version, and the kit that proved the programs

CASE is a file with a case text; '-' or nothing stands for standard input.
A refusal is one line, 'refused', its number and its place; standard error says it in words.
The status is 0 after a report, 1 after a refusal, and 2 if the call is wrong or something is missing.
"""

DAY = """\
usage: wozgrzyt day [CASE]

Prints the day report, with tabs between the fields:

    observed 5 7     5 of the 7 buses are observed
    step 2 N 3       bus 2 is observed: it is a neighbour of the unit at bus 3
    step 3 O         bus 3 is observed by its own unit
    step 1 Z 2       bus 1 is observed: bus 2 is zero-injection and observed, and so are its other neighbours
    xv no 1          cross-validation: one unit is confirmed by no other; 'xv yes' if there is none
    end              the report is whole

'wozgrzyt map' shows the same as a table or as a drawing.
"""

PLAN = """\
usage: wozgrzyt plan [BUDGET] [CASE]

Prints the fewest new units with which every bus is observed: 'fewest' and how many, 'pmu' and a bus for each, 'end'.
Installed units stay. BUDGET is the most new units, 0 to 8, and 3 if none is given. New units go only to sites Y.
Among the smallest additions it is the first, by comparing their rising lists number by number.
Refusal 11 says that no addition within the budget will do. 'wozgrzyt plan 8' asks for as many as the limit allows.

On a large grid the search can take long. After two seconds a terminal shows for how long it has searched.
"""

ROUNDS = """\
usage: wozgrzyt rounds [CASE]

Prints observation in rounds, a line for each round that adds a bus:

    round 1: 2 3 4 7    the first round adds buses 2, 3, 4 and 7: those with a unit, and their neighbours
    round 2: 1          the second adds bus 1

Each round looks at all buses against the set as it was when the round began, and adds everything that the rules give.
So no bus of a round counts as observed before the next round. The buses of all rounds are those that 'wozgrzyt day'
says are observed. If there is no unit, it prints 'no rounds: no unit observes a bus'.
"""

MAP = """\
usage: wozgrzyt map [CASE]
       wozgrzyt map --svg [CASE]    a drawing as SVG; Graphviz lays it out
       wozgrzyt map --dot [CASE]    the drawing's source for Graphviz, which need not be installed for this

Prints a row for each bus: its number, class (Z or I) and site (Y or N), its unit and whether another unit confirms it,
and whether it is observed or dark. An observed bus has the number of its step in the day report, and its reason:

    O      by its own unit
    N 3    as a neighbour of the unit at bus 3
    Z 2    by zero injection at bus 2

The dark buses and the units that no other unit confirms are listed at the end, and lines of several circuits if there
are any: '2-3 x2' is a line of 2 circuits. In a drawing an observed bus is filled, and a dark one is hollow with a
dashed border. A line of several circuits is drawn double, with their number.
"""

TIDY = """\
usage: wozgrzyt tidy [CASE]

Prints a case text that is nearly right as it should be, and says on standard error what it changed:

    blanks between fields become one tab, and blanks and empty lines elsewhere go
    a carriage return at the end of a line goes, and so does a byte order mark
    the records are put in order: grid, buses by number, lines by a and then b, units by number, end
    the lower bus of a line comes first
    a line's circuits are left off if they are 1
    the line feed at the end of the last line is added

What it says of the grid never changes. A text that is valid already keeps its bytes. If anything else is wrong, it
prints nothing, says what, and ends with status 1: a bus that is missing, a record that is there twice. Two lines of the
same buses may be one line or two circuits, so it leaves them too.
"""

IMPORT = """\
usage: wozgrzyt import [--names FILE] FILE

Prints the case text of a MATPOWER case file (.m) or of a file in the IEEE common data format. What is in the file tells
which it is. Buses are numbered from 1 in the file's order. Standard error has a table of the new numbers, the old
numbers and the names, separated by tabs; with --names it goes to that file.

A bus is Z only if the file says that it has no load, no generator and no shunt. What is unknown makes it I, and so does
a generator that is out of service. Parallel branches are the circuits of one line. Branches out of service are left
out. All sites are Y, and there is no unit. '-' stands for standard input.

A damaged file is refused with its line and status 2, and nothing is printed. If it has over 64 buses, over 256 lines or
a line of over 8 circuits, no case can hold it, and the status is 1.
"""

REFUSAL = """\
usage: wozgrzyt refusal [NUMBER]

Prints when a refusal is given, what its place is, and which programs and calls give it. Without a number: all of them.
The numbers are 1 to 13, and 51, 52, 53 and 62 of the C function wz_replay. A C result has the number in its last two
digits, and the place before them.
"""

CASE = """\
A case text says a grid and its installed units, one record a line:

    grid 3          there are 3 buses: n, from 1 to 64
    bus 1 I Y       bus 1 is of class I (anything but zero injection); at site Y a new unit may be put
    bus 2 Z N       bus 2 is of class Z (zero injection: nothing is drawn or fed there); at site N none may be put
    bus 3 I Y       one record for each bus, in the order of their numbers
    line 1 2        a line joins buses 1 and 2, the lower one first; lines rise by the first, and then by the second
    line 2 3 2      a line of 2 circuits: 2 to 8 are written, and 1 is not; there are 0 to 256 lines
    pmu 1           a unit is installed at bus 1; 0 to 64 units, rising
    end             nothing follows this line

One tab separates two fields, where the lines above have a blank. A line feed ends each line, the last one too.
Numbers have 1 to 4 digits and no leading zero. The text has at most 8,192 bytes.
However many circuits a line has, it makes its two buses neighbours once.
'wozgrzyt tidy' makes such a text of one with blanks for tabs, or with its records in another order.
"""

TEXTS = {
    "day": DAY, "plan": PLAN, "rounds": ROUNDS, "map": MAP, "tidy": TIDY, "import": IMPORT, "refusal": REFUSAL,
    "case": CASE, "help": USAGE, "version": USAGE,
}


def main(arguments):
    """Prints the help of a command, or of all."""
    if len(arguments) > 1:
        raise Misused("'help' takes one word")
    if not arguments:
        return show_text(USAGE)
    word = arguments[0].lstrip("-")
    if word not in TEXTS:
        raise Misused("there is no help on '%s'" % named(arguments[0]))
    return show_text(TEXTS[word])


def version(arguments):
    """Prints the project's version and the kit's identity."""
    if arguments:
        raise Misused("'--version' takes nothing")
    try:
        with open(places.version(), encoding="utf-8", errors="replace") as file:
            lines = file.read().splitlines()
    except OSError as error:
        raise Stop("the version cannot be read: %s: %s" % (places.version(), error.strerror)) from None
    if places.is_installed():
        kit = " ".join(lines[1:2]) or "the kit is not known"
    else:
        kit = kit_here() or "the kit is not known: rt is not on the PATH"
    return show_text("wozgrzyt %s\n%s\n" % (" ".join(lines[:1]), kit))


def kit_here():
    """The identity of the kit that built the programs of this checkout, or of the kit on the PATH if none did."""
    for name in programs.NAMES:
        try:
            with open(places.stamp(name), encoding="utf-8", errors="replace") as file:
                found = file.read().strip()
        except OSError:
            continue
        if found:
            return found
    return building.kit()
