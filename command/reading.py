"""Reads the case text that a call names."""
import os

from command.limits import MOST_BYTES
from command.speaking import CLOSED, Stop, named, say


def read_text(name, most=MOST_BYTES + 1):
    """The text of a file, or of standard input for '-', as far as its first `most` bytes; and its name in words."""
    if name == "-":
        if 0 in CLOSED:
            raise Stop("standard input cannot be read: it is closed, or a folder")
        return read_bytes(0, most, "standard input"), "standard input"
    if os.path.isdir(name):
        raise Stop("'%s' is a folder: a case is a file" % named(name))
    said = "the file '%s'" % named(name)
    try:
        file = os.open(name, os.O_RDONLY)
    except (FileNotFoundError, NotADirectoryError):
        raise Stop("there is no file '%s'" % named(name)) from None
    except OSError as error:
        raise Stop("%s cannot be read: %s" % (said, error.strerror)) from None
    try:
        return read_bytes(file, most, said), named(name)
    finally:
        os.close(file)


def read_bytes(file, most, said):
    """The first `most` bytes of an open file, or all if it has fewer."""
    if os.isatty(file):
        say("reading a case text from the terminal: ctrl-D at the start of a line ends it")
    text = b""
    try:
        while len(text) < most:
            more = os.read(file, most - len(text))
            if not more:
                break
            text += more
    except OSError as error:
        raise Stop("%s cannot be read: %s" % (said, error.strerror)) from None
    return text
