"""Standard streams that cannot be read or written, files that are none, links, odd paths and odd surroundings."""
import os
import pty
import shutil
import subprocess
import sys

from cases_support import NOBODY, TOP, Called, lines_of, stored, write

SEVEN = os.path.join(TOP, "cases", "seven.case")
REPLY = stored("cases", "seven.day")
WRITING = [
    ["day", SEVEN], ["plan", SEVEN], ["rounds", SEVEN], ["map", SEVEN], ["tidy", SEVEN], ["refusal", "3"], ["help"],
    ["--version"],
]


def shell(checks, script, **others):
    """What a shell script ends with, in which $0 is the command and $1 the case of seven buses."""
    words = ["/bin/sh", "-c", script, checks.command, SEVEN]
    done = subprocess.run(words, capture_output=True, env=checks.surroundings(**others), check=False, timeout=600)
    return Called(done.returncode, done.stdout, done.stderr)


def check_output(checks):
    """Nothing counts that was not written: a full device, a closed output, a reader that is gone."""
    for arguments in WRITING:
        with open("/dev/full", "wb") as full:
            called = checks.call(*arguments, stdout=full)
        checks.that("%s >/dev/full" % arguments[0], called.status == 2 and lines_of(called) == 1
                    and b"standard output cannot be written: No space" in called.err, called)
    for script, words in [
        ('"$0" day "$1" >&-', "standard output cannot be written: it is closed"),
        ('"$0" plan "$1" >&-', "standard output cannot be written: it is closed"),
        ('"$0" day >&- <"$1"', "standard output cannot be written: it is closed"),
        ('"$0" help >&-', "standard output cannot be written: it is closed"),
        ('"$0" day "$1" 1<"$1"', "standard output cannot be written: Bad file descriptor"),
    ]:
        checks.stops(script, shell(checks, script), words)
    reader, writer = os.pipe()
    os.close(reader)
    called = checks.call("day", SEVEN, stdout=writer)
    os.close(writer)
    checks.that("a reader that is gone", called.status == 2 and b"Broken pipe" in called.err, called)


def check_refusal_not_written(checks):
    """A refusal that is not written is none either."""
    with open("/dev/full", "wb") as full:
        called = checks.call("day", stdout=full, text=b"")
    checks.that("a refusal >/dev/full", called.status == 2 and lines_of(called) == 1, called)


def check_closed_error(checks):
    """Without standard error the reply and the status are the same."""
    for script, reply, status in [
        ('"$0" day "$1" 2>&-', REPLY, 0), ('"$0" day 2>&- <"$1"', REPLY, 0), ('"$0" day 2>/dev/full <"$1"', REPLY, 0),
        ('"$0" day 2>&- </dev/null', b"refused\t2\t1\n", 1), ('"$0" week 2>&-', b"", 2),
        ('"$0" week >&- 2>&- <&-', b"", 2),
    ]:
        called = shell(checks, script)
        checks.that(script, called == (status, reply, b""), called)


def check_input(checks):
    """Standard input that cannot be read is no empty text."""
    for script, words in [
        ('"$0" day <&-', "standard input cannot be read: it is closed"),
        ('"$0" plan 3 - <&-', "standard input cannot be read: it is closed"),
        ('"$0" map <&-', "standard input cannot be read: it is closed"),
        ('"$0" day </', "standard input cannot be read: it is closed, or a folder"),
        ('"$0" day 0>/dev/null', "standard input cannot be read: Bad file descriptor"),
    ]:
        checks.stops(script, shell(checks, script), words)
    called = shell(checks, '"$0" day "$1" <&-')
    checks.that("a closed input that is not asked for", called == (0, REPLY, b""), called)


def check_files(checks):
    """A name that is no file, or a file that cannot be read, is said in one line."""
    absent = os.path.join(checks.room, "absent")
    for name, words in [
        (absent, "there is no file '%s'" % absent), ("", "there is no file ''"),
        (checks.room, "'%s' is a folder: a case is a file" % checks.room),
        (os.path.join(SEVEN, "x"), "there is no file"), ("two\nlines", "there is no file 'two\\nlines'"),
        (b"\xff".decode("utf-8", "surrogateescape"), "there is no file '\\xff'"),
    ]:
        for part in ("day", "rounds", "map", "tidy")[:4 if name == absent else 1]:
            checks.stops("%s %r" % (part, name), checks.call(part, name), words)
    blank = os.path.join(checks.room, "a case", "of seven")
    os.mkdir(os.path.dirname(blank))
    shutil.copy(SEVEN, blank)
    called = checks.call("day", blank)
    checks.that("a file with blanks in its path", called == (0, REPLY, b""), called)
    os.mkfifo(os.path.join(checks.room, "pipe"))
    called = shell(checks, 'cat "$1" >"%s" & exec "$0" day "%s"' % ((os.path.join(checks.room, "pipe"),) * 2))
    checks.that("a named pipe", called == (0, REPLY, b""), called)


def as_nobody():
    """Options for a call without root's rights, and an interpreter that it may run; None if there is none."""
    if os.getuid() != 0:
        return {}, sys.executable
    options = {"user": NOBODY, "group": NOBODY, "extra_groups": []}
    for python in (sys.executable, "/usr/bin/python3"):
        try:
            if subprocess.run([python, "-c", "pass"], check=False, capture_output=True, **options).returncode == 0:
                return options, python
        except OSError:
            continue
    return None


def check_rights(checks):
    """A file without the right to read it."""
    found = as_nobody()
    if found is None:
        print("not run: a file without rights, since nobody has no python3")
        return
    secret = write(os.path.join(checks.room, "secret"), stored("cases", "seven.case"), 0o000)
    options, python = found
    called = checks.call(checks.command, "day", secret, command=python, **options)
    checks.stops("a file without rights", called, "cannot be read: Permission denied")


def check_surroundings(checks):
    """Links, CDPATH, TMPDIR and PYTHONPATH do not matter."""
    link = os.path.join(checks.room, "link")
    os.symlink(checks.command, link)
    far = os.path.join(checks.room, "far")
    os.symlink(os.path.relpath(link, checks.room), far)
    for command in (link, far):
        called = checks.call("day", SEVEN, command=command, cwd="/")
        checks.that("a symbolic link", called == (0, REPLY, b""), called)
    folder, name = os.path.split(checks.command)
    called = checks.call("day", SEVEN, command="./" + name, cwd=folder, env=checks.surroundings(CDPATH="/:/tmp"))
    checks.that("a set CDPATH", called == (0, REPLY, b""), called)
    for room in ("/absent", "/dev/full", ""):
        called = checks.call("day", SEVEN, env=checks.surroundings(TMPDIR=room))
        checks.that("TMPDIR=" + room, called == (0, REPLY, b""), called)
    caches = [folder for folder, _, _ in os.walk(os.path.join(TOP, "command")) if "__pycache__" in folder]
    checks.that("no compiled Python is left in the checkout: %s" % caches, not caches)


def check_terminal(checks):
    """A call that reads from a terminal says so. One that does not, does not."""
    ours, theirs = pty.openpty()
    with subprocess.Popen([checks.command, "day"], stdin=theirs, stdout=subprocess.PIPE, stderr=subprocess.PIPE,
                          env=checks.surroundings()) as process:
        said = process.stderr.readline()
        os.write(ours, stored("cases", "seven.case") + b"\x04")
        out, more = process.communicate(timeout=60)
    os.close(ours)
    os.close(theirs)
    called = Called(process.returncode, out, said + more)
    checks.that("from a terminal", called.status == 0 and out == REPLY and lines_of(called) == 1
                and b"reading a case text from the terminal" in said, called)


CHECKS = [
    check_output, check_refusal_not_written, check_closed_error, check_input, check_files, check_rights,
    check_surroundings, check_terminal,
]
