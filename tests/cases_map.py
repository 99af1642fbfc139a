"""The map: its table and its drawings, held to the references and to what is stored."""
import glob
import os
import random
import re
import shutil
import xml.etree.ElementTree

from cases_support import PROGRAM, TOP, Checkout, stored, write
from command import drawing, mapping, programs
from reference import Case, derivation
from reference_sites import unconfirmed
from reference_texts import read_case, write_case

SEVEN = os.path.join(TOP, "cases", "seven.case")
SEVERAL = "lines of several circuits: "
ROW = re.compile(r" *(\d+)  ([ZI])      ([YN])     (unit|-   )  (yes|no|-) +(observed|DARK) +(\d+|-)  (\S.*)")


def observed(text):
    """The map of a text, by the day report of the command's own program."""
    words = programs.words_of("day")

    def ask(asked):
        return programs.ask("day", words, asked)

    return mapping.observe(text, ask(text), ask)


def wanted(case):
    """The table that document 01 asks for, worked out by the references."""
    steps = {bus: (place, " ".join(map(str, reason))) for place, (bus, reason) in enumerate(derivation(case), 1)}
    alone = unconfirmed(case)
    rows = []
    for bus in range(1, case.n + 1):
        place, reason = steps.get(bus, ("-", "-"))
        unit = ("unit", "no" if bus in alone else "yes") if bus in case.units else ("-", "-")
        rows.append((str(bus), "Z" if bus in case.zero else "I", "Y" if bus in case.site else "N", *unit,
                     "observed" if bus in steps else "DARK", str(place), reason))
    dark = [str(bus) for bus in range(1, case.n + 1) if bus not in steps]
    return rows, ", ".join(dark) or "none", ", ".join(map(str, sorted(alone))) or "none"


def several_circuits(text):
    """The lines of several circuits that a case text says, each with how many."""
    return {(int(a), int(b)): int(count) for a, b, count in re.findall(rb"^line\t(\d+)\t(\d+)\t(\d)$", text, re.M)}


def read_several(table):
    """A printed table without its line on several circuits, and these lines, each with how many."""
    above, found, listed = table.partition(SEVERAL)
    rows = [re.fullmatch(r"(\d+)-(\d+) x(\d)", entry) for entry in listed.strip().split(", ")] if found else []
    return above, {(int(row[1]), int(row[2])): int(row[3]) for row in rows}


def read_table(table):
    """The rows of a printed table, the dark buses and the unconfirmed units."""
    head, *rows, empty, dark, alone = table.splitlines()
    assert head.split() == list(mapping.HEADS) and empty == "", table
    cells = [tuple(cell.strip() for cell in ROW.fullmatch(row).groups()) for row in rows]
    return cells, dark[len("dark buses: "):], alone[len("unconfirmed units: "):]


def check_tables(checks):
    """Every case has the table that the references give, and the stored one if there is one."""
    for name in sorted(glob.glob(os.path.join(TOP, "cases", "*.case"))):
        text = stored(name)
        table, several = read_several(mapping.table(observed(text)))
        checks.that("the map of %s:\n%s" % (name, table), read_table(table) == wanted(read_case(text)))
        checks.that("the circuits of %s: %s" % (name, several), several == several_circuits(text))
    kept = sorted(glob.glob(os.path.join(TOP, "cases", "*.map")))
    checks.that("maps are stored", len(kept) >= 2)
    for name in kept:
        called = checks.call("map", name[:-len("map")] + "case")
        checks.that("map, as in " + name, called == (0, stored(name), b""), called)
    called = checks.call("map", text=stored("cases", "seven.case"))
    checks.that("map of standard input", called == (0, stored("cases", "seven.map"), b""), called)


def drawn_case(rng):
    """A drawn grid with some units."""
    n = rng.randint(1, 20)
    lines = [(a, b) for a in range(1, n + 1) for b in range(a + 1, n + 1) if rng.random() < rng.choice((0.05, 0.15))]
    some = [[bus for bus in range(1, n + 1) if rng.random() < share] for share in (0.4, 0.2, 0.35)]
    return Case(n).drawn(lines=lines, zero=some[0], barred=some[1], units=some[2])


def check_drawn(checks):
    """Drawn grids, some of whose units are confirmed and some are not, and one of 64 units."""
    rng, mixed = random.Random(16), 0
    cases = [drawn_case(rng) for _ in range(60)]
    cases.append(Case(64).drawn(lines=[(bus, bus + 1) for bus in range(1, 40)], units=range(1, 65)))
    for case in cases:
        table = mapping.table(observed(write_case(case, 8192)))
        mixed += 0 < len(unconfirmed(case)) < len(case.units)
        checks.that("the map of a drawn grid:\n" + table, read_table(table) == wanted(case))
    checks.that("in %d grids some units are confirmed and some are not" % mixed, mixed >= 10)


def check_circuits(checks):
    """A line of several circuits is listed and drawn double with their number; all else is as with one circuit."""
    several = {(1, 2): 8, (3, 7): 2, (5, 6): 3}
    one = stored("cases", "seven.case")
    text = one
    for (a, b), count in several.items():
        text = text.replace(b"line\t%d\t%d\n" % (a, b), b"line\t%d\t%d\t%d\n" % (a, b, count))
    table, source = mapping.table(observed(text)), drawing.dot(observed(text))
    line = SEVERAL + "1-2 x8, 3-7 x2, 5-6 x3\n"
    checks.that("the map with circuits:\n" + table, table == stored("cases", "seven.map").decode() + line)
    drawn = {(int(a), int(b)): (int(count), look) for a, b, count, look in re.findall(
        r'^  (\d+) -- (\d+) \[label="x(\d)" (.*)\]$', source, re.M)}
    checks.that("circuits are drawn: %s" % drawn, {ends: count for ends, (count, _) in drawn.items()} == several)
    double = 'color="{0}:invis:{0}" '.format(drawing.GREY)
    checks.that("such lines are double", all(look.startswith(double) for _, look in drawn.values()))
    checks.that("the legend says so", source.count("a line of several circuits") == 1)
    bare = re.sub(r"<TR><TD[^>]*>x2</TD>.*?</TR>", "", re.sub(r"( -- \d+) \[.*\]", r"\1", source))
    checks.that("nothing else is drawn anew", bare == stored("cases", "seven.dot").decode())


def check_refused(checks):
    """A refused text is refused as by the day report."""
    text = stored("cases", "seven.case")[:-1]
    refused = checks.call("day", text=text)
    checks.that("the day report refuses", refused[:2] == (1, b"refused\t2\t16\n"), refused)
    for option in ([], ["--svg"], ["--dot"]):
        called = checks.call("map", *option, text=text)
        checks.that("a refused map %s" % option, called == refused, called)


def check_count(checks):
    """If the units found are not as many as the report counts, there is no map."""
    checkout = Checkout(checks, "miscounting", PROGRAM % "observed\\t0\\t3\\nxv\\tno\\t1\\nend\\n")
    text = b"grid\t3\nbus\t1\tI\tY\nbus\t2\tI\tY\nbus\t3\tI\tY\npmu\t1\npmu\t2\nend\n"
    checkout.call("day", text=text)
    called = checkout.call("map", text=text)
    checks.stops("a wrong count", called, "the day report counts 1 unconfirmed units, and 0 were found")


def check_dot(checks):
    """The source of a drawing has each bus and each line, and tells observed and dark buses apart."""
    for name in ("seven", "double-circuit"):
        called = checks.call("map", "--dot", os.path.join(TOP, "cases", name + ".case"))
        checks.that("map --dot, as in %s.dot" % name, called == (0, stored("cases", name + ".dot"), b""), called)
    for name in ("ieee14-placed", "ieee30-placed", "ieee57", "ieee57-circuits", "source000-theorem34"):
        text = stored("cases", name + ".case")
        case, grid = read_case(text), observed(text)
        source = drawing.dot(grid)
        looks = dict(re.findall(r"^  (\d+) \[(.*)\]$", source, re.M))
        checks.that("%s: each bus is drawn" % name, list(looks) == [str(bus) for bus in range(1, case.n + 1)])
        dark = {int(bus) for bus, look in looks.items() if 'style="dashed"' in look and "fillcolor" not in look}
        filled = {int(bus) for bus, look in looks.items() if 'style="filled" fillcolor="' in look}
        seen = {bus for bus, _ in derivation(case)}
        checks.that("%s: dark buses are hollow, others are filled" % name, (filled, dark) == (seen, set(
            range(1, case.n + 1)) - seen))
        units = {int(bus) for bus, look in looks.items() if "peripheries=2" in look}
        zero = {int(bus) for bus, look in looks.items() if 'shape="diamond"' in look}
        checks.that("%s: units and Z buses" % name, (units, zero) == (set(case.units), set(case.zero)))
        lines = {(int(a), int(b)) for a, b in re.findall(r"^  (\d+) -- (\d+)(?: \[.*\])?$", source, re.M)}
        checks.that("%s: each line is drawn" % name, lines == {
            (a, b) for a in range(1, case.n + 1) for b in case.rows[a] if a < b})


def check_marks(checks):
    """A bus with site N is marked, and so is a unit that no other confirms."""
    text = stored("cases", "seven.case")
    for record in (b"bus\t6\tI\t", b"bus\t3\tZ\t"):
        text = text.replace(record + b"Y", record + b"N")
    source = drawing.dot(observed(text))
    marks = dict(re.findall(r'^  (\d+) \[label=<\d+<BR/><FONT POINT-SIZE="9">(.*)</FONT>>', source, re.M))
    checks.that("marks: %s" % marks, marks == {"3": "N ?", "6": "N"})


def check_svg(checks):
    """With Graphviz the drawing is an SVG with every bus and line. Without it one line says what is missing."""
    bare = os.path.join(checks.room, "no graphviz")
    os.mkdir(bare)
    for tool in ("sh", "python3", "rt"):
        found = os.path.join(checks.path, tool) if tool != "rt" else shutil.which("rt")
        if found and os.path.lexists(found):
            os.symlink(found, os.path.join(bare, tool))
    called = checks.call("map", "--svg", SEVEN, env=checks.surroundings(PATH=bare))
    checks.stops("no Graphviz", called, "'map --svg' needs Graphviz (Debian: apt-get install graphviz)", "--dot")
    write(os.path.join(bare, "neato"), "#!/bin/sh\nexit 1\n", 0o755)
    called = checks.call("map", "--svg", SEVEN, env=checks.surroundings(PATH=bare))
    checks.stops("a Graphviz that fails", called, "Graphviz did not draw the map")
    if shutil.which("neato") is None:
        print("not run: the drawings as SVG, since Graphviz is not installed")
        return
    for name in ("seven", "ieee57-circuits"):
        called = checks.call("map", "--svg", os.path.join(TOP, "cases", name + ".case"))
        checks.that("map --svg %s" % name, called.status == 0 and not called.err, called)
        titles = [title.text for title in xml.etree.ElementTree.fromstring(called.out).iter() if
                  title.tag.endswith("}title")]
        case = read_case(stored("cases", name + ".case"))
        buses = {str(bus) for bus in range(1, case.n + 1)}
        lines = {"%d--%d" % (a, b) for a in range(1, case.n + 1) for b in case.rows[a] if a < b}
        checks.that("%s.svg has every bus and line" % name, buses | lines <= set(titles))
        marks = re.findall(rb">x(\d)</text>", called.out)
        several = several_circuits(stored("cases", name + ".case"))
        # the legend has one mark too
        checks.that("%s.svg has the circuits" % name, len(marks) == len(several) + bool(several))


def check_kept_picture(checks):
    """The picture that README shows is a drawing of the case of seven buses: its lines, and its dark buses dashed."""
    picture = stored("docs", "map-seven.svg").decode()
    parts = re.findall(r'class="(node|edge)">\s*<title>(.*?)</title>(.*?)</g>', picture, re.S)
    lines = re.findall(rb"^line\t(\d+)\t(\d+)$", stored("cases", "seven.case"), re.M)
    joined = {title.replace("&#45;", "-") for kind, title, _ in parts if kind == "edge"}
    checks.that("docs/map-seven.svg has the lines", joined == {"%s--%s" % (a.decode(), b.decode()) for a, b in lines})
    dashed = {int(title): "dasharray" in drawn for kind, title, drawn in parts if kind == "node"}
    dark = observed(stored("cases", "seven.case")).dark()
    checks.that("docs/map-seven.svg has the dark buses", dashed == {bus: bus in dark for bus in range(1, 8)})


CHECKS = [
    check_tables, check_drawn, check_circuits, check_refused, check_count, check_dot, check_marks, check_svg,
    check_kept_picture,
]
