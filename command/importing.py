"""`wozgrzyt import [--names FILE] FILE`: a MATPOWER case file or the IEEE common data format, printed as a case text.

Standard output has the case text, and standard error one line that says what was counted. The side table has a line
for each bus: its new number, its number in the file and its name, separated by tabs. It goes to standard error, or to
the file after --names. Ends with 0 after a case text. Ends with 1 if no case can hold the grid, and with 2 if the
file is damaged or cannot be read, if the reply cannot be written, or if it is called wrongly: one line says why, and
standard output has nothing."""
import os

from command import importing_ieee, importing_matpower
from command.importing_grid import Damaged, TooLarge, case_text, check_size, names_table, summary
from command.reading import read_text
from command.speaking import Misused, Stop, murmur, named, quoted, say, show_text

WELL, DOES_NOT_FIT, WRONG = 0, 1, 2
MOST_FILE_BYTES = 16 * 1024 * 1024
UNKNOWN = "neither a MATPOWER case ('mpc.bus = [') nor the IEEE common data format ('BUS DATA FOLLOWS')"


def arguments_of(words):
    """The file to read, and the file for the side table or None."""
    words = list(words)
    names = None
    if words[:1] == ["--names"]:
        if len(words) < 2:
            raise Misused("'--names' takes a file")
        names = words[1]
        words = words[2:]
    if words[:1] == ["--"]:
        words = words[1:]
    elif words and words[0].startswith("-") and words[0] != "-":
        raise Misused("'import' has no option %s" % quoted(words[0].encode("utf-8", "replace")))
    if len(words) != 1:
        raise Misused("'import' takes one file")
    return words[0], names


def grid_of(content):
    """The grid that the file says. What is in the file tells its format, and not its name."""
    text = content.decode("utf-8-sig", "replace")
    if "\0" in text:
        raise Damaged(text.count("\n", 0, text.index("\0")) + 1, "a NUL is in it, so it is no text")
    if importing_ieee.is_common_format(text):
        return importing_ieee.read(text)
    if importing_matpower.is_matpower(text):
        return importing_matpower.read(text)
    raise Damaged(1, UNKNOWN)


def write_names(grid, names, source):
    """The side table, into a file that is not the one read."""
    if os.path.exists(names) and os.path.exists(source) and os.path.samefile(names, source):
        raise Stop("the side table would take the place of the file '%s'" % named(source))
    try:
        with open(names, "w", encoding="utf-8", errors="replace", newline="\n") as stream:
            stream.write(names_table(grid))
    except (OSError, ValueError) as error:
        why = getattr(error, "strerror", None) or "that is no name of a file"
        raise Stop("the side table '%s' cannot be written: %s" % (named(names), why)) from None


def import_file(name, names):
    """Reads the file, and writes the case text and the side table. Answers the status."""
    content, spoken = read_text(name, MOST_FILE_BYTES + 1)
    if len(content) > MOST_FILE_BYTES:
        raise Stop("{}: it has over {:,} bytes".format(spoken, MOST_FILE_BYTES))
    try:
        grid = grid_of(content)
        check_size(grid)
    except TooLarge as reason:
        say("%s: %s" % (spoken, reason))
        return DOES_NOT_FIT
    except Damaged as reason:
        raise Stop("%s: %s" % (spoken, reason)) from None
    if names is not None:
        write_names(grid, names, name)
    show_text(case_text(grid))
    say("%s: %s" % (spoken, summary(grid)))
    if names is None:
        murmur(names_table(grid))
    return WELL


def main(arguments):
    """Imports the file that the words after `import` name. Answers the status."""
    try:
        return import_file(*arguments_of(arguments))
    except Stop as stop:
        say(str(stop))
        return WRONG
