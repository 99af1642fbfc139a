"""`tidy`: what it mends and what it leaves alone. And what the command says of itself."""
import glob
import os
import random
import shutil
import subprocess

import damaged_texts
import texts
from cases_support import TOP, stored
from command import helping, tidying
from command.explaining import explain
from reference import Refused
from reference_texts import read_case

SEVEN = stored("cases", "seven.case")
DOUBLE = stored("cases", "double-circuit.case")
COMMANDS = "day", "plan", "map", "tidy", "import", "refusal"
LINES = SEVEN.splitlines(True)
TURNED = b"".join([LINES[0], LINES[7], *LINES[1:7], *LINES[14:15], *LINES[8:14], LINES[15]])

BLANKS = "blanks become one tab between two fields in %s"

# What is nearly the text of seven buses, and what tidy says that it changed.
NEARLY = [
    ("blanks for tabs", SEVEN.replace(b"\t", b"  "), [BLANKS % "15 lines"]),
    ("blanks and tabs", SEVEN.replace(b"bus\t3\t", b" bus\t 3 \t"), [BLANKS % "1 line"]),
    ("blanks at the end", SEVEN.replace(b"end", b"end \t"), [BLANKS % "1 line"]),
    ("CRLF", SEVEN.replace(b"\n", b"\r\n"), ["carriage returns are dropped at the end of 16 lines"]),
    ("a byte order mark", b"\xef\xbb\xbf" + SEVEN, ["the byte order mark is dropped"]),
    ("no last line feed", SEVEN[:-1], ["the line feed at the end of the last line is added"]),
    ("empty lines", b"\n" + SEVEN.replace(b"line\t1", b" \nline\t1") + b"\n\n", ["4 lines without a record left out"]),
    ("blanks after the end", SEVEN + b"  ", ["1 line without a record left out"]),
    ("records in another order", TURNED, ["the records are put in order"]),
    ("b before a", SEVEN.replace(b"line\t3\t7", b"line\t7\t3"), ["the lower bus is put first in 1 line"]),
    ("all of it", b"\xef\xbb\xbf" + TURNED.replace(b"\t", b" ").replace(b"3 7", b"7 3").replace(b"\n", b"\r\n")[:-2], [
        "the byte order mark is dropped", "the line feed at the end of the last line is added",
        "carriage returns are dropped at the end of 15 lines", BLANKS % "15 lines",
        "the lower bus is put first in 1 line", "the records are put in order"]),
]

# The same for the text with a line of two circuits.
ONE_CIRCUIT = "the circuits, 1, are left off in %s"
NEARLY_DOUBLE = [
    ("blanks before circuits", DOUBLE.replace(b"\t", b" "), [BLANKS % "7 lines"]),
    ("one circuit", DOUBLE.replace(b"line\t1\t2\n", b"line\t1\t2\t1\n"), [ONE_CIRCUIT % "1 line"]),
    ("one circuit, b before a", DOUBLE.replace(b"line\t1\t2\n", b"line\t2\t1\t1\n"), [
        ONE_CIRCUIT % "1 line", "the lower bus is put first in 1 line"]),
    ("b before a, and circuits", DOUBLE.replace(b"2\t3\t2", b"3\t2\t2"), ["the lower bus is put first in 1 line"]),
    ("a tab for no circuits", DOUBLE.replace(b"line\t1\t2\n", b"line\t1\t2\t\n"), [BLANKS % "1 line"]),
    ("two tabs before circuits", DOUBLE.replace(b"2\t3\t2", b"2\t3\t\t2"), [BLANKS % "1 line"]),
    ("lines in another order", DOUBLE.replace(b"line\t1\t2\nline\t2\t3\t2\n", b"line\t2\t3\t2\nline\t1\t2\n"), [
        "the records are put in order"]),
]

# What is not tidy's to mend, and what it says.
CIRCUITS_RANGE = "the circuits of a line are to be 2 to 8, or left off for one, and here is "
UNMENDABLE = [
    ("an empty text", b"", "the text is empty"),
    ("blanks alone", b" \r\n\n", "the text is empty"),
    ("a line twice", SEVEN.replace(b"line\t3\t4\n", b"line 3 2\n"), "lines 10 and 11: 'line 2 3' is there twice"),
    ("a bus twice", SEVEN.replace(b"bus\t4\tI\tY\n", b"bus\t3\tI\tY\n"), "lines 4 and 5: 'bus 3' is there twice"),
    ("a unit twice", SEVEN.replace(b"pmu\t3\n", b"pmu\t3\npmu\t3\n"), "lines 15 and 16: 'pmu 3' is there twice"),
    ("two grids", b"grid\t8\n" + SEVEN, "lines 1 and 2: 'grid' is there twice"),
    ("a missing bus", SEVEN.replace(b"bus\t4\tI\tY\n", b""), "bus 4 is missing: there are 6 of 7"),
    ("no grid", SEVEN.replace(b"grid\t7\n", b""), "'grid n' is missing"),
    ("no end", SEVEN.replace(b"end\n", b""), "'end' is missing: the text may be cut off"),
    ("a record after the end", SEVEN + b"\npmu 4\n", "line 18: something follows 'end', which is to be the last line"),
    ("a bad class", SEVEN.replace(b"bus\t3\tZ", b"bus 3 Q"),
     r"line 4: the class 'Q' is wrong: Z or I is wanted; the line is 'bus\t3\tQ\tY'"),
    ("a leading zero", SEVEN.replace(b"pmu\t3", b"pmu\t03"), "line 15: the number '03' has a leading zero"),
    ("an unknown word", SEVEN.replace(b"pmu", b"unit"), "line 15: no record begins with 'unit'"),
    ("a field too few", SEVEN.replace(b"line\t1\t2", b"line 1"), "line 9: the field 'b' is missing"),
    ("65 buses", SEVEN.replace(b"grid\t7", b"grid 65"), "line 1: n is to be 1 to 64, and it is 65"),
    ("a unit at bus 8", SEVEN.replace(b"pmu\t3", b"pmu\t8"), "line 15: a bus number is to be 1 to 7, and here is 8"),
    ("a line of one bus", SEVEN.replace(b"line\t1\t2", b"line\t2\t2"), "line 9: this line joins bus 2 to itself"),
    ("0 circuits", SEVEN.replace(b"line\t1\t2", b"line 1 2 0"), "line 9: %s0" % CIRCUITS_RANGE),
    ("9 circuits", SEVEN.replace(b"line\t1\t2", b"line 1 2 9"), "line 9: %s9" % CIRCUITS_RANGE),
    ("circuits with a leading zero", SEVEN.replace(b"line\t1\t2", b"line 1 2 02"), "line 9: the number '02' has"),
    ("a fourth number", SEVEN.replace(b"line\t1\t2", b"line 1 2 2 2"), "line 9: there is a field too many, '2'"),
    ("a line twice, with circuits", SEVEN.replace(b"line\t1\t2\n", b"line 1 2\nline 2 1 2\n"),
     "lines 9 and 10: 'line 1 2' is there twice"),
    ("a line twice, with other circuits", SEVEN.replace(b"line\t1\t2\n", b"line 1 2 3\nline 1 2 2\n"),
     "lines 9 and 10: 'line 1 2' is there twice"),
    ("a bus or circuits", SEVEN.replace(b"line\t1\t2", b"line\t1\t\t2"), "line 9: a number is missing: its field is"),
    ("a bus or circuits, with blanks", SEVEN.replace(b"line\t1\t2", b" line 1\t \t 2"), "line 9: a number is missing"),
    ("CR alone", SEVEN.replace(b"\n", b"\r"), "line 1: there is a carriage return in the line"),
    ("UTF-16", SEVEN.decode().encode("utf-16"), "line 1: the text is in UTF-16"),
    ("too long", SEVEN + b" " * 70000, "the text is over 65,536 bytes"),
]


def check_mended(checks):
    """What is nearly right becomes right, and each change is said in a line."""
    for whole, nearly in (SEVEN, NEARLY), (DOUBLE, NEARLY_DOUBLE):
        for name, text, changes in nearly:
            checks.that("tidy: " + name, tidying.tidy(text) == (whole, changes))
    for name, text, changes in NEARLY[::5]:
        called = checks.call("tidy", text=text)
        said = "".join("wozgrzyt: standard input: %s\n" % change for change in changes)
        checks.that("tidy called: " + name, called == (0, SEVEN, said.encode()), called)
    long = SEVEN.replace(b"\n", b" " * 900 + b"\n")
    called = checks.call("tidy", text=long)
    checks.that("tidy: a text that fits only afterwards", len(long) > 8192 and called[:2] == (0, SEVEN), called)


def fault(text):
    """What tidy cannot mend, in words; None if it mends all."""
    try:
        tidying.tidy(text)
    except tidying.Unmendable as found:
        return str(found)
    return None


def check_hints(checks):
    """The words of a refusal say that tidy mends it exactly if it does."""
    for name, text, _, _, words in damaged_texts.DAMAGED:
        said = fault(text)
        checks.that("%s: %s; tidy says: %s" % (name, words, said), words.endswith(damaged_texts.TIDY) == (said is None))


def check_drawn_damage(checks):
    """What tidy makes of a damaged text is a case text, and the words of its refusal said that tidy mends it."""
    rng, wrong, count = random.Random(16), [], 0
    damaged = list(texts.damaged(SEVEN, 8192, rng, 100)) + list(texts.damaged(DOUBLE, 8192, rng, 60))
    for text in damaged:
        try:
            read_case(text)
            continue
        except Refused as no:
            words = explain(*no.args, text)
        if fault(text) is None:
            count += 1
            read_case(tidying.tidy(text)[0])
            if not words.endswith(damaged_texts.TIDY):
                wrong.append((text, words))
    checks.that("%d texts were mended, and the words said so, but: %s" % (count, wrong), count > 50 and not wrong)


def check_unmended(checks):
    """What could mean one thing or another is not mended: nothing is printed, and the status is 1."""
    for name, text, words in UNMENDABLE:
        said = fault(text)
        checks.that("tidy: %s: %s" % (name, said), said is not None and said.startswith(words))
    for name, text, words in UNMENDABLE[::4]:
        called = checks.call("tidy", text=text)
        checks.refuses("tidy called: " + name, called, b"", "wozgrzyt: standard input: " + words)
    buses = "".join("bus %d I Y\n" % bus for bus in range(1, 25))
    ends = [(a, b) for a in range(1, 25) for b in range(a + 1, 25)]
    lines = "".join("line %d %d\n" % two for two in ends)
    said = fault(("grid 24\n" + buses + lines + "end\n").encode())
    checks.that("tidy: too many lines: %s" % said, said == "there are 276 lines, and a grid has at most 256")


def check_valid(checks):
    """A text that is valid already keeps its bytes."""
    for name in sorted(glob.glob(os.path.join(TOP, "cases", "*.case"))):
        text = stored(name)
        checks.that("tidy of " + name, tidying.tidy(text) == (text, []))
    path = os.path.join(TOP, "cases", "ieee57.case")
    called = checks.call("tidy", path)
    said = "wozgrzyt: %s: nothing to change, the text is valid\n" % path
    checks.that("tidy of a valid text", called == (0, stored(path), said.encode()), called)


def untidy(text, rng):
    """A text that says the same, written down in another way."""
    first, *rest, last = text.splitlines()
    rng.shuffle(rest)
    rows = [line.split(b"\t") for line in [first] + rest + [last]]
    rows = [row + [b"1"] if row[0] == b"line" and len(row) == 3 and rng.random() < 0.2 else row for row in rows]
    rows = [[row[0], row[2], row[1], *row[3:]] if row[0] == b"line" and rng.random() < 0.5 else row for row in rows]
    blanks = [b" ", b"\t", b"\t ", b"   "]
    lines = [rng.choice([b"", b" "]) + rng.choice(blanks).join(row) + rng.choice([b"", b"\t"]) for row in rows]
    feed, mark = rng.choice([b"\n", b"\r\n", b"\n\n"]), rng.choice([b"", b"\xef\xbb\xbf"])
    return mark + feed.join(lines) + rng.choice([b"", b"\n"])


def check_meaning(checks):
    """However a valid text is written down anew, tidy gives the text itself."""
    rng = random.Random(16)
    for name in sorted(glob.glob(os.path.join(TOP, "cases", "*.case"))):
        text = stored(name)
        for _ in range(5):
            spoilt = untidy(text, rng)
            checks.that("tidy of %r" % spoilt, tidying.tidy(spoilt)[0] == text)


def check_help(checks):
    """Help says how to call each part, and the example of a case text is one."""
    usage = checks.call("help")
    checks.that("help", usage.status == 0 and usage.out.startswith(b"usage: wozgrzyt day") and not usage.err, usage)
    for arguments in ([], ["-h"], ["--help"], ["help", "help"]):
        called = checks.call(*arguments)
        checks.that("help by %s" % arguments, called == usage, called)
    for word in COMMANDS:
        checks.that("help names " + word, b"wozgrzyt %s " % word.encode() in usage.out)
        called = checks.call("help", word)
        usage_of = b"usage: wozgrzyt " + word.encode()
        checks.that("help " + word, called.status == 0 and called.out.startswith(usage_of), called)
    for arguments in (["day", "--help"], ["plan", "2", "-h"], ["map", "--svg", "--help"], ["import", "--help"]):
        called = checks.call(*arguments)
        checks.that(" ".join(arguments), called == (0, helping.TEXTS[arguments[0]].encode(), b""), called)
    called = checks.call("help", "case")
    example = b"".join(b" ".join(line.split()[:words]) + b"\n" for line, words in zip(
        called.out.splitlines()[2:10], (2, 4, 4, 4, 3, 4, 2, 1)))
    tidied = checks.call("tidy", text=example)
    checks.that("help case has a case text", tidied.status == 0 and tidied.out.count(b"\n") == 8, tidied)
    report = checks.call("day", text=tidied.out)
    checks.that("its day report", report.out.startswith(b"observed\t3\t3\n"), report)


def check_version(checks):
    """The version is the project's, and the kit's identity is what `rt version` prints."""
    called = checks.call("--version")
    version, kit = called.out.decode().splitlines()
    checks.that("--version", called.status == 0 and version == "wozgrzyt " + stored("VERSION").decode().strip(), called)
    if shutil.which("rt"):
        printed = subprocess.run(["rt", "version"], stdout=subprocess.PIPE, check=True).stdout.decode().strip()
        checks.that("the kit's identity is '%s'" % kit, kit == printed, called)


CHECKS = [
    check_mended, check_hints, check_drawn_damage, check_unmended, check_valid, check_meaning, check_help,
    check_version,
]
