"""Draws a map: as source for Graphviz, and as SVG if Graphviz is there to lay it out.

Fill and border say what is observed, so that the drawing is read without colours too.
"""
import shutil

from command.running import run
from command.speaking import Stop

BLUE, BLACK, RED, GREY = "#1f5f8b", "#0b2233", "#c0392b", "#777777"
FILLED = 'style="filled" fillcolor="{0}" color="{0}" fontcolor="white"'
OBSERVED = FILLED.format(BLUE)
WITH_UNIT = FILLED.format(BLACK) + " peripheries=2"
DARK = 'style="dashed" color="{0}" fontcolor="{0}" penwidth=2'.format(RED)
SHAPES = {"I": 'shape="circle"', "Z": 'shape="diamond" width=0.62 height=0.62'}
NO_SITE, NOT_CONFIRMED = "N", "?"
# a double line, with the number of its circuits beside it
SEVERAL = 'color="{0}:invis:{0}" fontname="Helvetica" fontsize=10'.format(GREY)
HEAD = """\
graph "wozgrzyt" {
  layout=neato overlap=false splines=true sep="+16" esep="+7" outputorder=edgesfirst
  fontname="Helvetica" fontsize=11 labelloc=b labeljust=l
  node [fontname="Helvetica" fontsize=12 fixedsize=true width=0.45 height=0.45 margin=0]
  edge [color="%s" penwidth=1.3]
""" % GREY
LEGEND = [
    ('BGCOLOR="%s" BORDER="0"' % BLUE, " ", "observed"),
    ('STYLE="dashed" COLOR="%s" BORDER="2"' % RED, " ", "dark"),
    ('BGCOLOR="%s" BORDER="0"' % BLACK, " ", "observed, with a unit (double border)"),
    ('BORDER="0"', "&#9671;", "class Z, zero injection (diamond)"),
    ('BORDER="0"', "&#9675;", "class I (circle)"),
    ('BORDER="0"', NO_SITE, "no new unit may be put here (site N)"),
    ('BORDER="0"', NOT_CONFIRMED, "a unit that no other unit confirms"),
]
SEVERAL_CIRCUITS = ('BORDER="0"', "x2", "a line of several circuits, here 2 (double line)")


def dot(grid):
    """The map as source for Graphviz."""
    lines = ["  %d [%s]\n" % (bus, look(grid, bus)) for bus in grid.buses()]
    lines += ["  %d -- %d%s\n" % (*ends, circuits(grid, ends)) for ends in grid.case.lines]
    return HEAD + "  label=<%s>\n" % legend(grid) + "".join(lines) + "}\n"


def look(grid, bus):
    """How a bus is drawn."""
    sort, site = grid.case.buses[bus - 1]
    style = WITH_UNIT if bus in grid.case.units else OBSERVED if bus in grid.steps else DARK
    marks = [NO_SITE] if site == "N" else []
    marks += [NOT_CONFIRMED] if bus in grid.unconfirmed else []
    label = '"%d"' % bus
    if marks:
        label = '<%d<BR/><FONT POINT-SIZE="9">%s</FONT>>' % (bus, " ".join(marks))
    return "label=%s %s %s" % (label, SHAPES[sort], style)


def circuits(grid, ends):
    """How a line is drawn that has several circuits; nothing for one circuit."""
    count = grid.case.circuits.get(ends)
    return "" if count is None else ' [label="x%d" %s]' % (count, SEVERAL)


def legend(grid):
    """What is observed, and what the shapes mean, as a table of Graphviz."""
    rows = ['<TR><TD COLSPAN="2" ALIGN="LEFT">%d of %d buses are observed</TD></TR>' % (len(grid.steps), grid.case.n)]
    shapes = LEGEND + [SEVERAL_CIRCUITS] if grid.case.circuits else LEGEND
    rows += ['<TR><TD %s WIDTH="22" HEIGHT="16">%s</TD><TD ALIGN="LEFT">%s</TD></TR>' % row for row in shapes]
    return '<TABLE BORDER="0" CELLBORDER="0" CELLSPACING="3" CELLPADDING="1">%s</TABLE>' % "".join(rows)


def svg(grid):
    """The map as SVG."""
    found = shutil.which("neato")
    if found is None:
        raise Stop("'map --svg' needs Graphviz (Debian: apt-get install graphviz); 'map --dot' prints its source")
    try:
        drawn, status = run([found, "-Tsvg"], dot(grid).encode())
    except OSError as error:
        raise Stop("Graphviz cannot be run: " + error.strerror) from None
    if status != 0 or b"</svg>" not in drawn:
        raise Stop("Graphviz did not draw the map")
    return drawn.decode()
