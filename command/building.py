"""Proves and builds the three programs, in a checkout, when a call needs them."""
import collections
import contextlib
import fcntl
import os
import shutil
import subprocess

from command import places
from command.running import started
from command.speaking import Stop, murmur, say

LAST_LINES = 20


def ready(name):
    """The path of a program's binary. In a checkout it is built first, if it is missing or older than a source."""
    path = places.program(name)
    if places.is_installed():
        if not os.access(path, os.X_OK):
            raise Stop("the program '%s' is missing: there is no %s" % (name, path))
        return path
    if not is_fresh(name):
        kit_command()
        with one_at_a_time():
            if not is_fresh(name):
                build(name)
    return path


def is_fresh(name):
    """Whether the binary is there and no source has changed since its build began."""
    try:
        began = os.stat(places.stamp(name)).st_mtime_ns
    except OSError:
        return False
    return os.access(places.program(name), os.X_OK) and not any(time >= began for time in source_times())


def source_times():
    """The times at which the sources were last changed, folders among them."""
    for source in places.sources():
        yield changed(source)
        for folder, below, files in os.walk(source):
            if places.MADE in below:
                # what rt makes is no source, and makes the folder about it newer
                below.remove(places.MADE)
            else:
                yield changed(folder)
            for file in files:
                yield changed(os.path.join(folder, file))


def changed(path):
    """When a file or folder was last changed; 0 if it is gone."""
    try:
        return os.lstat(path).st_mtime_ns
    except OSError:
        return 0


def kit_command():
    """The path of the kit's command rt."""
    path = shutil.which("rt")
    if path is None:
        raise Stop("the command rt of the Rattle kit is not on the PATH")
    return path


def kit():
    """What `rt version` prints, one line; empty if rt is missing or fails."""
    try:
        printed = subprocess.run([kit_command(), "version"], capture_output=True, stdin=subprocess.DEVNULL, check=True)
    except (Stop, OSError, subprocess.SubprocessError):
        return ""
    return " ".join(printed.stdout.decode("utf-8", "replace").split())


@contextlib.contextmanager
def one_at_a_time():
    """Holds the lock of this checkout's builds. A second build waits for the first."""
    try:
        os.makedirs(places.target(), exist_ok=True)
        file = os.open(places.lock(), os.O_RDWR | os.O_CREAT, 0o666)
        lock(file)
    except OSError as error:
        reason = places.target(), error.strerror
        raise Stop("a program is to be built, and %s cannot be written: %s" % reason) from None
    try:
        yield
    finally:
        os.close(file)


def lock(file):
    """Locks an open file, and waits if another call has it."""
    try:
        fcntl.flock(file, fcntl.LOCK_EX | fcntl.LOCK_NB)
    except BlockingIOError:
        say("another call is building; waiting for it")
        fcntl.flock(file, fcntl.LOCK_EX)


def build(name):
    """Proves and builds a program, and stamps it with the time at which the build began and the kit's identity."""
    say("proving and building the program '%s', some minutes the first time" % name)
    new = places.stamp(name) + ".new"
    try:
        open(new, "wb").close()
        began = os.stat(new).st_mtime_ns
        if prove(name) != 0 or not os.access(places.made(name), os.X_OK):
            raise Stop("the program '%s' could not be proved and built" % name)
        os.makedirs(places.programs(), exist_ok=True)
        shutil.copy(places.made(name), places.program(name) + ".new")
        os.replace(places.program(name) + ".new", places.program(name))
        with open(new, "wb") as file:
            file.write(kit().encode() + b"\n")
        os.utime(new, ns=(began, began))
        os.replace(new, places.stamp(name))
    except OSError as error:
        raise Stop("%s cannot be written: %s" % (places.target(), error.strerror)) from None


def prove(name):
    """Runs `rt run`, shows its own lines as they come, and its last lines if it fails. Answers its status.

    rt builds a program only to run it, and with nothing to read it ends at once.
    """
    last = collections.deque(maxlen=LAST_LINES)
    options = {"stdin": subprocess.DEVNULL, "stdout": subprocess.PIPE, "stderr": subprocess.STDOUT}
    words = [kit_command(), "run"]
    try:
        with started(words, with_group=True, cwd=places.crate(name), env=surroundings(), **options) as process:
            for line in process.stdout:
                line = line.decode("utf-8", "replace")
                last.append(line)
                if line.startswith("rt:"):
                    murmur(line)
    except OSError as error:
        raise Stop("the command rt cannot be run: " + error.strerror) from None
    if process.returncode != 0:
        murmur("".join(last))
    return process.returncode


def surroundings():
    """The environment for rt: this one without CDPATH, and without a TMPDIR that cannot be used."""
    kept = {name: value for name, value in os.environ.items() if name != "CDPATH"}
    room = kept.get("TMPDIR")
    if room is not None and not (os.path.isdir(room) and os.access(room, os.W_OK | os.X_OK)):
        del kept["TMPDIR"]
    return kept
