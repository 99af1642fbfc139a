"""Asks the three proved programs. What they reply is the only source of a verdict."""
import os
import re
import subprocess

from command.building import kit_command, ready
from command.running import run
from command.speaking import Stop

NAMES = "day", "plan", "rounds"
REFUSED = re.compile(rb"refused\t([0-9]+)\t([0-9]+)\n")


def emulator(machine):
    """The words that come before a program's path on this machine. The programs are made for x86-64.

    On another machine the kit's emulator runs them, with the C library that is beside it.
    """
    if machine == "x86_64":
        return []
    try:
        rt = kit_command()
    except Stop as stop:
        words = "the programs are for x86-64, and on %s the kit's emulator runs them: %s"
        raise Stop(words % (machine, stop)) from None
    guide = subprocess.run([rt, "doc"], capture_output=True, stdin=subprocess.DEVNULL, check=False)
    kit = os.path.dirname(os.path.dirname(os.fsdecode(guide.stdout).strip()))
    tools = os.path.join(kit, "on", machine, "toolchain")
    found = os.path.join(tools, "bin", "qemu-x86_64")
    if not os.access(found, os.X_OK):
        raise Stop("the kit has no emulator for " + machine)
    libraries = os.path.join(tools, "lib")
    return [found, os.path.join(libraries, "ld-linux-x86-64.so.2"), "--library-path", libraries]


def words_of(name):
    """The words that start a program on this machine. In a checkout it is built if need be."""
    path = ready(name)
    return emulator(os.uname().machine) + [path]


def ask(name, words, text, patiently=False):
    """A program's whole reply to a text. What is no whole reply is none, and stops the command."""
    try:
        reply, status = run(words, text, patiently)
    except OSError as error:
        raise Stop("the program '%s' cannot be run: %s" % (name, error.strerror)) from None
    if status != 0:
        raise Stop("the program '%s' did not end well: %s" % (name, ending(status)))
    if not is_whole(name, reply):
        raise Stop("the program '%s' gave no whole reply" % name)
    return reply


def ending(status):
    """How a process ended, in words."""
    return "a signal ended it, number %d" % -status if status < 0 else "its status is %d" % status


def is_whole(name, reply):
    """Whether a reply is one line with a refusal, or ends with the line 'end' after others.

    A report of no rounds is that line alone.
    """
    if name == "rounds" and reply == b"end\n":
        return True
    return refusal(reply) is not None or reply.endswith(b"\nend\n")


def refusal(reply):
    """The number and the place of a refusal; None if the reply is a report."""
    found = REFUSED.fullmatch(reply)
    return found and (int(found[1]), int(found[2]))
