"""Damaged case texts: each with the day report's refusal and with the words for it."""
from cases_support import stored

SEVEN = stored("cases", "seven.case")
LINES = SEVEN.splitlines(True)
TIDY = "; 'wozgrzyt tidy' mends that"
TAB_RULE = ": one tab separates two fields, and nothing else does"
CR_RULE = "the line ends with a carriage return, as in CRLF: a line feed alone is wanted"
AFTER_END = "follows 'end', which is to be the last line"
CUT = "; its line feed is missing too, so that the text may be cut off"
WORDS = ": the words are grid, bus, line, pmu and end"
LINE_FORMS = ": 'line a b' or 'line a b circuits' is wanted"
CIRCUITS = "the circuits of a line are to be 2 to 8, or left off for one, and here is "
AGAIN = " is here again: several circuits are one line, which says their number"


def put(at, *lines):
    """The text of seven buses with other lines in the place of one."""
    return b"".join(LINES[:at - 1]) + b"".join(lines) + b"".join(LINES[at:])


def up_to(count, more=b""):
    """The first lines of the text, and something after them."""
    return b"".join(LINES[:count]) + more


def without(*numbers):
    """The text without some of its lines."""
    return b"".join(line for at, line in enumerate(LINES, 1) if at not in numbers)


def quote(line):
    """How the words end that quote a line."""
    return "; the line is '%s'" % line


def many_lines(count, circuits=b"\n"):
    """A text with so many lines, each with these bytes after its buses."""
    ends = [(a, b) for a in range(1, 25) for b in range(a + 1, 25)][:count]
    text = b"grid\t24\n" + b"".join(b"bus\t%d\tI\tY\n" % bus for bus in range(1, 25))
    return text + b"".join(b"line\t%d\t%d" % two + circuits for two in ends) + b"end\n"


# of the whole text
WHOLE = [
    ("an empty text", b"", 2, 1, "line 1: the text is empty: 'grid n' is missing"),
    ("9,000 bytes", b"\0" * 9000, 1, 0, "the text is over 8,192 bytes"),
    ("8,193 bytes after 'end'", SEVEN.ljust(8193, b"x"), 1, 0, "the text is over 8,192 bytes"),
    ("a byte order mark", b"\xef\xbb\xbf" + SEVEN, 2, 1, "line 1: the text begins with a byte order mark, which is no "
     r"part of a case text; the line is '\xef\xbb\xbfgrid\t7'" + TIDY),
    ("UTF-16", b"\xff\xfe" + SEVEN.decode().encode("utf-16-le"), 2, 1,
     "line 1: the text is in UTF-16, and plain ASCII is wanted" + quote(r"\xff\xfeg\x00r\x00i\x00d\x00\t\x007\x00")),
    ("CRLF", SEVEN.replace(b"\n", b"\r\n"), 2, 1, "line 1: " + CR_RULE + quote(r"grid\t7\r") + TIDY),
    ("CR alone", SEVEN.replace(b"\n", b"\r"), 2, 1, "line 1: there is a carriage return in the line: a line feed ends "
     "a line, and nothing else does" + CUT + r"; the line is 'grid\t7\rbus\t1\tI\tY\rbus\t2\tZ\tY\rbus'.."),
    ("blanks for tabs", SEVEN.replace(b"\t", b" "), 2, 1,
     "line 1: there are blanks in the line" + TAB_RULE + quote("grid 7") + TIDY),
    ("a line feed first", b"\n" + SEVEN, 2, 1, "line 1: the line is empty" + TIDY),
    ("a zero byte alone", b"\0", 2, 1, r"line 1: no record begins with '\x00'" + WORDS + CUT + quote(r"\x00")),
]

# of what is missing or too much
MISSING = [
    ("no 'grid'", without(1), 2, 1, "line 1: 'grid n' is missing: it comes before any 'bus'" + quote(r"bus\t1\tI\tY")),
    ("cut after 'grid'", up_to(1), 2, 2, "line 2: bus 1 is missing: 0 of 7 were read, and the text ends here"),
    ("cut after four buses", up_to(5), 2, 6, "line 6: bus 5 is missing: 4 of 7 were read, and the text ends here"),
    ("cut in a bus", up_to(5, b"bus\t5\tZ"), 2, 6,
     "line 6: the field 'site' is missing: 'bus number class site' is wanted" + CUT + quote(r"bus\t5\tZ")),
    ("three buses and 'line'", without(6, 7, 8), 2, 6,
     "line 6: bus 5 is missing: 4 of 7 were read before this 'line'" + quote(r"line\t1\t2")),
    ("six buses and 'end'", up_to(7, b"end\n"), 2, 8,
     "line 8: bus 7 is missing: 6 of 7 were read before this 'end'" + quote("end")),
    ("bus 5 left out", without(6), 4, 6,
     "line 6: bus 5 is missing: 4 of 7 were read before this bus 6" + quote(r"bus\t6\tI\tY")),
    ("'grid' says one more", put(1, b"grid\t8\n"), 2, 9,
     "line 9: bus 8 is missing: 7 of 8 were read before this 'line'" + quote(r"line\t1\t2")),
    ("'grid' says one less", put(1, b"grid\t6\n"), 2, 8,
     "line 8: there is a bus too many: 'grid' says 6, and all were read" + quote(r"bus\t7\tI\tY")),
    ("no 'end'", without(16), 2, 16, "line 16: 'end' is missing: the text ends here"),
    ("no 'end' after the buses", up_to(8), 2, 9, "line 9: 'end' is missing: the text ends here"),
    ("no last line feed", SEVEN[:-1], 2, 16, "line 16: the line feed at the end of the line is missing; the line is "
     "'end'" + TIDY),
    ("no line feed after a line", up_to(8, b"line\t1\t2"), 2, 9, "line 9: the text breaks off: the line feed at the "
     "end of the line is missing, and so is 'end'" + quote(r"line\t1\t2")),
    ("half of 'end'", SEVEN[:-2], 2, 16, "line 16: no record begins with 'en'" + WORDS + CUT + quote("en")),
    ("a unit after 'end'", SEVEN + b"pmu\t4\n", 2, 17,
     "line 17: something " + AFTER_END + quote(r"pmu\t4")),
    ("'end' twice", SEVEN + b"end\n", 2, 17, "line 17: something " + AFTER_END + quote("end")),
    ("an empty line after 'end'", SEVEN + b"\n", 2, 17,
     "line 17: an empty line " + AFTER_END + TIDY),
    ("an empty line and more after 'end'", SEVEN + b"\npmu\t4\n", 2, 17,
     "line 17: an empty line " + AFTER_END),
    ("a byte after 'end'", SEVEN + b"\x1a", 2, 17,
     "line 17: something " + AFTER_END + quote(r"\x1a")),
]

# of the form of one line
FORM = [
    ("an empty line", put(9, b"\n", LINES[8]), 2, 9, "line 9: the line is empty" + TIDY),
    ("a line of blanks", put(9, b" \t \n", LINES[8]), 2, 9,
     r"line 9: there are only blanks in the line; the line is ' \t '" + TIDY),
    ("CR at one line", put(4, b"bus\t3\tZ\tY\r\n"), 2, 4, "line 4: " + CR_RULE + quote(r"bus\t3\tZ\tY\r") + TIDY),
    ("a blank at the end", put(4, b"bus\t3\tZ\tY \n"), 2, 4,
     "line 4: there are blanks in the line" + TAB_RULE + quote(r"bus\t3\tZ\tY ") + TIDY),
    ("blanks and a bad class", put(4, b"bus 3 Q Y\n"), 2, 4,
     "line 4: there are blanks in the line" + TAB_RULE + quote("bus 3 Q Y")),
    ("two tabs", put(4, b"bus\t3\t\tZ\tY\n"), 2, 4,
     "line 4: there is a tab too many in the line" + TAB_RULE + quote(r"bus\t3\t\tZ\tY") + TIDY),
    ("a tab at the start", put(1, b"\tgrid\t7\n"), 2, 1,
     "line 1: there is a tab too many in the line" + TAB_RULE + quote(r"\tgrid\t7") + TIDY),
    ("a tab and no word", put(4, b"\t3\tZ\tY\n"), 2, 4,
     "line 4: the line begins with a tab: its word is missing" + quote(r"\t3\tZ\tY")),
    ("an unknown word", put(4, b"knot\t3\tZ\tY\n"), 2, 4,
     "line 4: no record begins with 'knot'" + WORDS + quote(r"knot\t3\tZ\tY")),
    ("a word in capitals", put(4, b"BUS\t3\tZ\tY\n"), 2, 4,
     "line 4: the word 'BUS' is wrong: 'bus' has small letters" + quote(r"BUS\t3\tZ\tY")),
    ("a comment", put(9, b"# the lines\n", LINES[8]), 2, 9,
     "line 9: no record begins with '# the lines'" + WORDS + quote("# the lines")),
    ("a long line", put(9, b"x" * 500 + b"\n"), 2, 9, "line 9: no record begins with '%s'..%s; the line is '%s'.." % (
        "x" * 40, WORDS, "x" * 40)),
    ("class Q", put(4, b"bus\t3\tQ\tY\n"), 2, 4, "line 4: the class 'Q' is wrong: Z or I is wanted" + quote(
        r"bus\t3\tQ\tY")),
    ("a small class", put(4, b"bus\t3\tz\tY\n"), 2, 4, "line 4: the class 'z' is wrong: Z or I is wanted" + quote(
        r"bus\t3\tz\tY")),
    ("an empty class and a bad site", put(4, b"bus\t3\t\tX\n"), 2, 4,
     "line 4: the class is missing: its field is empty, and Z or I is wanted" + quote(r"bus\t3\t\tX")),
    ("site X", put(4, b"bus\t3\tZ\tX\n"), 2, 4, "line 4: the site 'X' is wrong: Y or N is wanted" + quote(
        r"bus\t3\tZ\tX")),
    ("no site", put(4, b"bus\t3\tZ\n"), 2, 4,
     "line 4: the field 'site' is missing: 'bus number class site' is wanted" + quote(r"bus\t3\tZ")),
    ("a field too many", put(15, b"pmu\t3\t4\n"), 2, 15,
     "line 15: there is a field too many, '4': 'pmu number' is wanted" + quote(r"pmu\t3\t4")),
    ("'grid' alone", put(1, b"grid\n"), 2, 1, "line 1: the field 'n' is missing: 'grid n' is wanted" + quote("grid")),
    ("'end' with a field", put(16, b"end\t1\n"), 2, 16,
     "line 16: there is a field too many, '1': 'end' is wanted" + quote(r"end\t1")),
    ("one end of a line", put(9, b"line\t1\n"), 2, 9, "line 9: the field 'b' is missing" + LINE_FORMS + quote(
        r"line\t1")),
    ("a leading zero", put(2, b"bus\t01\tI\tY\n"), 2, 2, "line 2: the number '01' has a leading zero" + quote(
        r"bus\t01\tI\tY")),
    ("five digits", put(1, b"grid\t10000\n"), 2, 1, "line 1: the number '10000' has over 4 digits" + quote(
        r"grid\t10000")),
    ("no number", put(15, b"pmu\tthree\n"), 2, 15, "line 15: 'three' is no number" + quote(r"pmu\tthree")),
    ("a negative number", put(15, b"pmu\t-3\n"), 2, 15, "line 15: '-3' is no number" + quote(r"pmu\t-3")),
    ("an empty number", put(15, b"pmu\t\n"), 2, 15, "line 15: a number is missing: its field is empty" + quote(
        r"pmu\t")),
    ("a quote and a backslash", put(15, b"pmu\t'\\\n"), 2, 15,
     r"line 15: '\'\\' is no number; the line is 'pmu\t\'\\'"),
    ("'grid' again", put(2, b"grid\t7\n", LINES[1]), 2, 2,
     "line 2: 'grid' is here again: it is the first line, and no other" + quote(r"grid\t7")),
    ("a bus after the lines", put(16, b"bus\t8\tI\tY\n", LINES[15]), 2, 16,
     "line 16: there is a bus too many: 'grid' says 7, and all were read" + quote(r"bus\t8\tI\tY")),
    ("a line after a unit", put(16, b"line\t6\t7\n", LINES[15]), 2, 16,
     "line 16: a 'line' comes after a 'pmu': every line comes before the first pmu" + quote(r"line\t6\t7")
     + TIDY),
    ("'grid' too late", LINES[1] + LINES[0] + b"".join(LINES[2:]), 2, 1,
     "line 1: 'grid' comes after a 'bus': it is the first line" + quote(r"bus\t1\tI\tY") + TIDY),
    ("a bus too late", put(9, b"").replace(LINES[7], LINES[8] + LINES[7]), 2, 8,
     "line 8: bus 7 comes after a 'line': every bus comes before it" + quote(r"line\t1\t2") + TIDY),
    ("a bus after 'end'", without(8) + LINES[7], 2, 8,
     "line 8: bus 7 is missing: 6 of 7 were read before this 'line'" + quote(r"line\t1\t2")),
]

# of ranges and of order
NUMBERS = [
    ("no buses", put(1, b"grid\t0\n"), 3, 1, "line 1: n is to be 1 to 64, and it is 0" + quote(r"grid\t0")),
    ("65 buses", put(1, b"grid\t65\n"), 3, 1, "line 1: n is to be 1 to 64, and it is 65" + quote(r"grid\t65")),
    ("bus 0", put(2, b"bus\t0\tI\tY\n"), 3, 2, "line 2: a bus number is to be 1 to 7, as 'grid' says, and here is 0"
     + quote(r"bus\t0\tI\tY")),
    ("a line to bus 8", put(14, b"line\t5\t8\n"), 3, 14,
     "line 14: a bus number is to be 1 to 7, as 'grid' says, and here is 8" + quote(r"line\t5\t8")),
    ("a unit at bus 64", put(15, b"pmu\t64\n"), 3, 15,
     "line 15: a bus number is to be 1 to 7, as 'grid' says, and here is 64" + quote(r"pmu\t64")),
    ("257 lines", many_lines(257), 3, 282, "line 282: this is the 257th line, and a grid has at most 256" + quote(
        r"line\t18\t20")),
    ("bus 3 twice", put(5, LINES[3], LINES[4]), 4, 5, "line 5: bus 3 is here again: bus 4 is the next" + quote(
        r"bus\t3\tZ\tY")),
    ("buses 3 and 4 turned", put(4, LINES[4], LINES[3]).replace(LINES[3] + LINES[4], LINES[3]), 4, 4,
     "line 4: bus 3 comes after bus 4: buses rise by one" + quote(r"bus\t4\tI\tY") + TIDY),
    ("a above b", put(9, b"line\t2\t1\n"), 4, 9, "line 9: the lower bus of a line comes first: 'line 1 2' is wanted"
     + quote(r"line\t2\t1") + TIDY),
    ("a bus joined to itself", put(9, b"line\t1\t1\n"), 4, 9, "line 9: a line joins two different buses, and this one "
     "joins bus 1 to itself" + quote(r"line\t1\t1")),
    ("a line twice", put(10, LINES[8], LINES[9]), 4, 10, "line 10: the line of buses 1 and 2" + AGAIN + quote(
        r"line\t1\t2")),
    ("a line twice, turned", put(11, b"line\t2\t1\n"), 4, 11,
     "line 11: the line of buses 1 and 2" + AGAIN + quote(r"line\t2\t1")),
    ("a line too late", put(11, LINES[10], b"line\t1\t7\n"), 4, 12,
     "line 12: the line 1 7 comes after 3 4: lines rise by a, and then by b" + quote(r"line\t1\t7") + TIDY),
    ("a unit twice", put(15, LINES[14], LINES[14]), 4, 16, "line 16: the unit at bus 3 is here again" + quote(
        r"pmu\t3")),
    ("a unit too late", put(15, LINES[14], b"pmu\t1\n"), 4, 16,
     "line 16: the unit at bus 1 comes after the one at 3: units rise" + quote(r"pmu\t1") + TIDY),
]

# of the circuits of a line: their form, their range, and the order of lines that have some
CIRCUITS_OF_LINES = [
    ("a fourth number", put(9, b"line\t1\t2\t2\t2\n"), 2, 9,
     "line 9: there is a field too many, '2'" + LINE_FORMS + quote(r"line\t1\t2\t2\t2")),
    ("a fourth number beside 9 circuits", put(9, b"line\t1\t2\t9\t1\n"), 2, 9,
     "line 9: there is a field too many, '1'" + LINE_FORMS + quote(r"line\t1\t2\t9\t1")),
    ("circuits with a leading zero", put(9, b"line\t1\t2\t02\n"), 2, 9,
     "line 9: the number '02' has a leading zero" + quote(r"line\t1\t2\t02")),
    ("circuits of five digits", put(9, b"line\t1\t2\t10000\n"), 2, 9,
     "line 9: the number '10000' has over 4 digits" + quote(r"line\t1\t2\t10000")),
    ("circuits that are no number", put(9, b"line\t1\t2\tx2\n"), 2, 9,
     "line 9: 'x2' is no number" + quote(r"line\t1\t2\tx2")),
    ("a tab after the buses", put(9, b"line\t1\t2\t\n"), 2, 9,
     "line 9: there is a tab too many in the line" + TAB_RULE + quote(r"line\t1\t2\t") + TIDY),
    ("a tab after the circuits", put(9, b"line\t1\t2\t2\t\n"), 2, 9,
     "line 9: there is a tab too many in the line" + TAB_RULE + quote(r"line\t1\t2\t2\t") + TIDY),
    ("two tabs before the circuits", put(9, b"line\t1\t2\t\t2\n"), 2, 9,
     "line 9: there is a tab too many in the line" + TAB_RULE + quote(r"line\t1\t2\t\t2") + TIDY),
    ("blanks before the circuits", put(9, b"line 1 2 3\n"), 2, 9,
     "line 9: there are blanks in the line" + TAB_RULE + quote("line 1 2 3") + TIDY),
    ("an empty bus, and a bus or circuits", put(9, b"line\t1\t\t2\n"), 2, 9,
     "line 9: a number is missing: its field is empty" + quote(r"line\t1\t\t2")),
    ("blanks, an empty bus, and a bus or circuits", put(9, b"line 1\t \t2\n"), 2, 9,
     "line 9: there are blanks in the line" + TAB_RULE + quote(r"line 1\t \t2")),
    ("circuits after a unit", put(16, b"line\t6\t7\t2\n", LINES[15]), 2, 16,
     "line 16: a 'line' comes after a 'pmu': every line comes before the first pmu" + quote(r"line\t6\t7\t2") + TIDY),
    ("0 circuits", put(9, b"line\t1\t2\t0\n"), 3, 9, "line 9: " + CIRCUITS + "0" + quote(r"line\t1\t2\t0")),
    ("1 circuit", put(9, b"line\t1\t2\t1\n"), 3, 9, "line 9: " + CIRCUITS + "1" + quote(r"line\t1\t2\t1") + TIDY),
    ("9 circuits", put(9, b"line\t1\t2\t9\n"), 3, 9, "line 9: " + CIRCUITS + "9" + quote(r"line\t1\t2\t9")),
    ("9,999 circuits", put(9, b"line\t1\t2\t9999\n"), 3, 9, "line 9: " + CIRCUITS + "9999" + quote(
        r"line\t1\t2\t9999")),
    ("9 circuits of a line that is turned", put(9, b"line\t2\t1\t9\n"), 3, 9,
     "line 9: " + CIRCUITS + "9" + quote(r"line\t2\t1\t9")),
    ("9 circuits of a line that is there twice", put(10, b"line\t1\t2\t9\n"), 3, 10,
     "line 10: " + CIRCUITS + "9" + quote(r"line\t1\t2\t9")),
    ("circuits of a line to bus 8", put(14, b"line\t5\t8\t2\n"), 3, 14,
     "line 14: a bus number is to be 1 to 7, as 'grid' says, and here is 8" + quote(r"line\t5\t8\t2")),
    ("257 lines of 2 circuits", many_lines(257, b"\t2\n"), 3, 282,
     "line 282: this is the 257th line, and a grid has at most 256" + quote(r"line\t18\t20\t2")),
    ("a line twice, then with circuits", put(10, b"line\t1\t2\t2\n"), 4, 10,
     "line 10: the line of buses 1 and 2" + AGAIN + quote(r"line\t1\t2\t2")),
    ("a line twice, first with circuits", put(9, b"line\t1\t2\t2\n", LINES[8]), 4, 10,
     "line 10: the line of buses 1 and 2" + AGAIN + quote(r"line\t1\t2")),
    ("a above b, with circuits", put(9, b"line\t2\t1\t3\n"), 4, 9,
     "line 9: the lower bus of a line comes first: 'line 1 2 3' is wanted" + quote(r"line\t2\t1\t3") + TIDY),
    ("circuits from a bus to itself", put(9, b"line\t1\t1\t2\n"), 4, 9, "line 9: a line joins two different buses, "
     "and this one joins bus 1 to itself" + quote(r"line\t1\t1\t2")),
    ("a line with circuits too late", put(11, LINES[10], b"line\t1\t7\t2\n"), 4, 12,
     "line 12: the line 1 7 comes after 3 4: lines rise by a, and then by b" + quote(r"line\t1\t7\t2") + TIDY),
]

DAMAGED = WHOLE + MISSING + FORM + NUMBERS + CIRCUITS_OF_LINES
