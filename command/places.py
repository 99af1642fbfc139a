"""Where the files of the command are: the only module that knows a place.

A checkout has command/ at its top, with VERSION and crates/ beside it. What rt makes of a crate is in its folder out/,
and a build puts a copy of the program into target/bin/.
An installed copy has command/ in PREFIX/lib/wozgrzyt/, and beside it

    installed     a file that says that this is an installed copy; what is in it does not matter
    bin/          the programs day, plan and rounds as they were built
    version       its first line is the project's version, its second what `rt version` printed at the build
"""
import os

MADE = "out"
HOME = os.path.dirname(os.path.dirname(os.path.realpath(__file__)))


def at(*names):
    """The path of a file of this copy, by its names from the copy's home."""
    return os.path.join(HOME, *names)


def is_installed():
    """Whether this is an installed copy, in which nothing is ever built."""
    return os.path.exists(at("installed"))


def programs():
    """The folder of the programs' binaries."""
    return at("bin") if is_installed() else at("target", "bin")


def program(name):
    """The path of a program's binary."""
    return os.path.join(programs(), name)


def target():
    """The folder that a build writes to."""
    return at("target")


def sources():
    """The files and folders of which the programs are built."""
    return [at("crates"), at("crates.txt")]


def stamp(name):
    """The file whose time is that at which the program's last build began, and which has the kit's identity."""
    return at("target", "built." + name)


def crate(name):
    """The folder of a program's crate."""
    return at("crates", name)


def made(name):
    """The binary that rt leaves of a program."""
    return at("crates", name, MADE, name)


def lock():
    """The file that a build holds, so that no two run at once."""
    return at("target", "lock")


def version():
    """The file with the project's version in its first line."""
    return at("version") if is_installed() else at("VERSION")
