"""What the command writes: replies on standard output, and words on standard error."""
import os

CLOSED = set()
ESCAPES = {9: "\\t", 10: "\\n", 13: "\\r", 39: "\\'", 92: "\\\\"}
MOST_QUOTED = 40


class Stop(Exception):
    """Ends the command with status 2. Its words are the one line on standard error."""


class Misused(Stop):
    """The command was called wrongly."""

    def __str__(self):
        return super().__str__() + "; 'wozgrzyt help' says how to call it"


def hold_streams():
    """Notes which standard streams are closed, and gives them the null device: no other file may take their numbers."""
    for number in (0, 1, 2):
        try:
            os.fstat(number)
        except OSError:
            CLOSED.add(number)
            os.set_inheritable(os.open(os.devnull, os.O_RDWR), True)


def say(words):
    """Writes a line of words on standard error. If it cannot be written, nobody is there to be told."""
    murmur("wozgrzyt: " + words.replace("\n", " ") + "\n")


def murmur(characters):
    """Writes characters on standard error as they are."""
    try:
        os.write(2, characters.encode("utf-8", "backslashreplace"))
    except OSError:
        pass


def show(reply):
    """Writes bytes on standard output, and stops if not every byte is written."""
    if 1 in CLOSED:
        raise Stop("standard output cannot be written: it is closed")
    try:
        while reply:
            reply = reply[os.write(1, reply):]
        os.close(os.dup(1))  # some file systems say only now that they had no room
    except OSError as error:
        raise Stop("standard output cannot be written: " + error.strerror) from None


def show_text(text):
    """Writes a text on standard output, and answers 0."""
    show(text.encode())
    return 0


def quoted(data):
    """Bytes as printable characters between quotes, cut to about 40."""
    shown = ""
    for byte in data:
        piece = ESCAPES.get(byte) or (chr(byte) if 32 <= byte < 127 else "\\x%02x" % byte)
        if len(shown) + len(piece) > MOST_QUOTED:
            return "'" + shown + "'.."
        shown += piece
    return "'" + shown + "'"


def named(name):
    """A file's name as printable characters."""
    letters = os.fsencode(name).decode("utf-8", "backslashreplace")
    return "".join(c if c.isprintable() else c.encode("unicode_escape").decode() for c in letters)


def counted(number, thing, things=None):
    """A number of things in words: '1 unit', '2 units', '8,192 bytes', '2 buses' with its own plural."""
    return "{:,} {}".format(number, thing if number == 1 else things or thing + "s")
