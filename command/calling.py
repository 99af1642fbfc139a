"""Which part of the command a call is for.

The status is 0 after a report, 1 after a refusal, and 2 if the command is called wrongly or something is missing.
"""
import importlib
import signal

from command.speaking import Misused, Stop, hold_streams, named, say

PARTS = {
    "day": ("reporting", "day"),
    "plan": ("reporting", "plan"),
    "rounds": ("rounds", "main"),
    "map": ("mapping", "main"),
    "tidy": ("tidying", "main"),
    "import": ("importing", "main"),
    "refusal": ("refusals", "main"),
    "help": ("helping", "main"),
    "version": ("helping", "version"),
}
OTHER_NAMES = {"-h": "help", "--help": "help", "--version": "version"}
HELP_WORDS = "-h", "--help"


def main(arguments):
    """Does what the arguments ask, and answers the status."""
    hold_streams()
    if signal.getsignal(signal.SIGINT) == signal.default_int_handler:
        signal.signal(signal.SIGINT, signal.SIG_DFL)
    try:
        return call(arguments or ["help"])
    except Stop as stop:
        say(str(stop))
    except Exception as error:  # status 1 would say that a text is refused
        say("a mistake in the command itself: %s: %s" % (type(error).__name__, error))
    return 2


def call(arguments):
    """Calls the part that the first word names, with the other words."""
    word, *rest = arguments
    word = OTHER_NAMES.get(word, word)
    if word not in PARTS:
        raise Misused("there is no '%s'" % named(word))
    if word != "help" and any(argument in HELP_WORDS for argument in rest):
        word, rest = "help", [word]
    module, function = PARTS[word]
    return getattr(importlib.import_module("command." + module), function)(rest)
