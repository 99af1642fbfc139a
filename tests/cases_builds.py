"""Builds: when the programs are built, what stops a build, and copies that need none."""
import os
import shutil
import subprocess

from cases_streams import as_nobody
from cases_support import KIT, MACHINE, PROGRAM, REPORT, TOP, Called, Checkout, copy_modules, stored, write
from command import programs

REPLY = REPORT.encode().decode("unicode_escape").encode()
ONE_BUS = b"grid\t1\nbus\t1\tI\tY\nend\n"


def built(checks, name):
    """A checkout in miniature whose day program is built."""
    checkout = Checkout(checks, name)
    called = checkout.call("day", text=ONE_BUS)
    checks.that("%s: a first build" % name, called[:2] == (0, REPLY) and b"rt: day proved" in called.err, called)
    return checkout


def check_when(checks):
    """A program is built if it is missing or older than a source, and not otherwise."""
    checkout = built(checks, "when")
    called = checkout.call("day", text=ONE_BUS)
    checks.that("a second call builds nothing", called == (0, REPLY, b"") and len(checkout.builds()) == 2, called)
    for count, name in enumerate(("crates/grid/lib.rt", "crates.txt", "crates/grid/new.rt"), 2):
        checkout.edit(name)
        called = checkout.call("day", text=ONE_BUS)
        checks.that("%s is edited" % name, called[:2] == (0, REPLY) and len(checkout.builds()) == 2 * count, called)
    called = checkout.call("plan", text=ONE_BUS)
    last = checkout.builds()[-1]
    checks.that("the other program is built by itself", (called.status, last) == (0, "end plan"), called)


def check_removed(checks):
    """A removed binary is built again, though what rt made and the command's stamp are kept."""
    checkout = built(checks, "removed")
    os.remove(checkout.at("target", "bin", "day"))
    called = checkout.call("day", text=ONE_BUS)
    checks.that("a removed binary", called[:2] == (0, REPLY) and len(checkout.builds()) == 4, called)


def check_edited(checks):
    """A source that is edited during the build is built the next time."""
    checkout = Checkout(checks, "edited")
    checkout.rt_does("[ -e edited ] || { touch edited; sleep 0.05; echo changed >>crates/grid/lib.rt; }\n")
    called = checkout.call("day", text=ONE_BUS)
    checks.that("an edit during the build", called[:2] == (0, REPLY), called)
    called = checkout.call("day", text=ONE_BUS)
    checks.that("the call after it builds", called[:2] == (0, REPLY) and len(checkout.builds()) == 4, called)
    called = checkout.call("day", text=ONE_BUS)
    checks.that("and the next does not", called == (0, REPLY, b"") and len(checkout.builds()) == 4, called)


def check_two_at_once(checks):
    """Two first calls at once build once, one after the other."""
    checkout = Checkout(checks, "at once")
    checkout.rt_does("sleep 0.6\n")
    options = {"stdin": subprocess.DEVNULL, "stdout": subprocess.PIPE, "stderr": subprocess.PIPE}
    calls = [subprocess.Popen([checkout.command, word], env=checkout.surroundings(), **options)
             for word in ("day", "day", "plan")]
    for process in calls:
        out, err = process.communicate(timeout=60)
        called = Called(process.returncode, out, err)
        checks.that("a call beside another", called[:2] == (0, REPLY), called)
    builds = checkout.builds()
    apart = all(builds[at:at + 2] == ["begin " + name, "end " + name] for at, name in
                ((at, builds[at].split()[1]) for at in range(0, len(builds), 2)))
    checks.that("builds at once: %s" % builds, sorted(builds[::2]) == ["begin day", "begin plan"] and apart)


def check_failing(checks):
    """A build that fails, and one that makes nothing, end with 2 and say so."""
    checkout = Checkout(checks, "failing")
    for script, words in [("echo 'rt: day NOT PROVED'; exit 1\n", b"rt: day NOT"), ("exit 0\n", b"could not be")]:
        checkout.rt_does(script)
        called = checkout.call("day", text=ONE_BUS)
        last = called.err.splitlines()[-1]
        checks.that("a build that fails", called[:2] == (2, b"") and words in called.err, called)
        checks.that("its last line", last == b"wozgrzyt: the program 'day' could not be proved and built", called)
    os.remove(checkout.at("rt-does"))
    called = checkout.call("day", text=ONE_BUS)
    checks.that("the call after it builds", called[:2] == (0, REPLY), called)
    write(checkout.at("bin", "rt"), "#!/absent/sh\n", 0o755)
    checkout.edit("crates.txt")
    called = checkout.call("day", text=ONE_BUS)
    said = b"wozgrzyt: the command rt cannot be run: No such file or directory\n"
    checks.that("an rt that cannot be run", called[:2] == (2, b"") and called.err.endswith(said), called)


def check_no_kit(checks):
    """Without rt a build says so, and a program that is there runs."""
    checkout = Checkout(checks, "no kit")
    bare = checkout.surroundings(with_kit=False)
    called = checkout.call("day", text=ONE_BUS, env=bare)
    checks.stops("no rt", called, "the command rt of the Rattle kit is not on the PATH")
    called = checkout.call("--version", env=bare)
    checks.that("the version without rt", called.status == 0 and b"rt is not on the PATH" in called.out, called)
    checkout.call("day", text=ONE_BUS)
    called = checkout.call("day", text=ONE_BUS, env=bare)
    if MACHINE == "x86_64":
        checks.that("no rt and a fresh program", called == (0, REPLY, b""), called)
    else:
        checks.stops("no rt and no emulator", called, "the command rt of the Rattle kit is not on the PATH")
    called = checkout.call("--version", env=bare)
    version = "wozgrzyt %s\n%s\n" % (stored("VERSION").decode().strip(), KIT)
    checks.that("the version of a build", called == (0, version.encode(), b""), called)
    no_python = os.path.join(checks.room, "empty")
    os.mkdir(no_python)
    called = checkout.call("day", env=checks.surroundings(PATH=no_python), text=ONE_BUS)
    checks.stops("no python3", called, "python3 is not on the PATH")


def check_rt_surroundings(checks):
    """rt runs in a crate, without CDPATH and without a TMPDIR that cannot be used, with nothing to read."""
    checkout = Checkout(checks, "a path with blanks")
    checkout.rt_does('echo "$PWD|${CDPATH-none}|${TMPDIR-none}|$(cat)" >>seen\n')
    case = write(checkout.at("one bus.case"), ONE_BUS)
    for room, wanted in (("/absent", "none"), (checks.room, checks.room)):
        checkout.edit("crates.txt")
        surroundings = checkout.surroundings(CDPATH="/", TMPDIR=room)
        called = checkout.call("day", case, text=b"not for rt", cwd="/", env=surroundings)
        checks.that("TMPDIR=%s in a path with blanks" % room, called[:2] == (0, REPLY), called)
        with open(checkout.at("seen"), encoding="utf-8") as file:
            seen = file.read().splitlines()[-1]
        checks.that("what rt has: " + seen, seen == "%s|none|%s|" % (checkout.home, wanted))


def check_unwritable(checks):
    """A checkout that cannot be written: a build says so, and what is built runs."""
    found = as_nobody()
    if found is None:
        print("not run: an unwritable checkout, since nobody has no python3")
        return
    options, python = found
    checkout = Checkout(checks, "unwritable")
    for folder in (checkout.home, checkout.at("crates")):
        os.chmod(folder, 0o555)
    arguments = [checkout.command, "day"]
    called = checkout.call(*arguments, command=python, text=ONE_BUS, **options)
    words = "a program is to be built, and %s cannot be written" % checkout.at("target")
    checks.stops("an unwritable checkout", called, words)
    os.chmod(checkout.home, 0o755)
    checkout.call("day", text=ONE_BUS)
    for folder in (checkout.at("target"), checkout.home):
        os.chmod(folder, 0o555)
    called = checkout.call(*arguments, command=python, text=ONE_BUS, **options)
    checks.that("an unwritable checkout with its program", called == (0, REPLY, b""), called)
    for folder in (checkout.home, checkout.at("target"), checkout.at("crates")):
        os.chmod(folder, 0o755)


def check_no_whole_reply(checks):
    """What is no whole reply is none: nothing is printed, and the status is 2."""
    checkout = built(checks, "no reply")
    binary = checkout.at("target", "bin", "day")
    for printed in ("", "end\\n", "observed\\t0\\t1\\nxv\\tyes\\n", "observed\\t0\\t1\\nxv\\tyes\\nend",
                    "refused\\t2\\n", "refused\\t2\\t1", "refused\\t2\\t1\\nrefused\\t2\\t1\\n"):
        write(binary, PROGRAM % printed, 0o755)
        called = checkout.call("day", text=ONE_BUS)
        checks.stops("a reply %r" % printed, called, "the program 'day' gave no whole reply")
    for script, words in [(PROGRAM % REPORT + "exit 3\n", "did not end well: its status is 3"),
                          ("#!/bin/sh\nkill -9 $$\n", "did not end well: a signal ended it, number 9")]:
        write(binary, script, 0o755)
        for part in ("day", "map", "tidy"):
            checks.stops("%s of %r" % (part, script), checkout.call(part, text=ONE_BUS), "the program 'day' " + words)
    if MACHINE == "x86_64":  # elsewhere the emulator says it
        write(binary, "#!/absent/sh\n", 0o755)
        called = checkout.call("day", text=ONE_BUS)
        checks.stops("a program that cannot be run", called, "the program 'day' cannot be run: No such file")


def check_installed(checks):
    """An installed copy runs its own programs, builds nothing, and says if one is missing."""
    prefix = os.path.join(checks.room, "pre fix")
    home = os.path.join(prefix, "lib", "wozgrzyt")
    for folder in (os.path.join(prefix, "bin"), os.path.join(home, "bin")):
        os.makedirs(folder)
    command = shutil.copy(os.path.join(TOP, "wozgrzyt"), os.path.join(prefix, "bin"))
    copy_modules(home)
    write(os.path.join(home, "installed"), "")
    write(os.path.join(home, "version"), "7.8.9\n%s\n" % KIT)
    write(os.path.join(home, "bin", "day"), PROGRAM % REPORT, 0o755)
    link = os.path.join(checks.room, "linked")
    os.symlink(command, link)
    bare = Checkout(checks, "kit of the installed").surroundings(with_kit=MACHINE != "x86_64")
    for path in (command, link):
        called = checks.call("day", command=path, text=ONE_BUS, env=bare)
        checks.that("an installed copy", called == (0, REPLY, b""), called)
    called = checks.call("plan", command=command, text=ONE_BUS, env=bare)
    checks.stops("a program that is not installed", called, "the program 'plan' is missing: there is no " + home)
    called = checks.call("--version", command=command, env=bare)
    checks.that("the installed version", called == (0, ("wozgrzyt 7.8.9\n%s\n" % KIT).encode(), b""), called)
    write(os.path.join(home, "command", "importing.py"), "def main(arguments):\n    return len(arguments)\n")
    called = checks.call("import", "a", "b", "c", command=command, env=bare)
    checks.that("the part for import is called", called == (3, b"", b""), called)


def stopped_emulator(machine):
    """What is said if there is no emulator for a machine; empty if there is one."""
    try:
        programs.emulator(machine)
    except programs.Stop as stop:
        return str(stop)
    return ""


def check_emulator(checks):
    """On another machine the kit's emulator runs the programs; on x86-64 none does."""
    kit = os.path.join(checks.room, "kit")
    tools = os.path.join(kit, "on", "aarch64", "toolchain")
    os.makedirs(os.path.join(tools, "bin"))
    write(os.path.join(kit, "rt"), "#!/bin/sh\necho '%s/docs/START-HERE.md'\n" % kit, 0o755)
    before = os.environ["PATH"]
    os.environ["PATH"] = kit
    try:
        checks.that("x86-64 needs no emulator", programs.emulator("x86_64") == [])
        found = stopped_emulator("aarch64")
        checks.that("a kit without an emulator: %s" % found, found == "the kit has no emulator for aarch64")
        os.environ["PATH"] = tools
        found = stopped_emulator("aarch64")
        wanted = "the programs are for x86-64, and on aarch64 the kit's emulator runs them: the command rt of "
        checks.that("no kit: %s" % found, found == wanted + "the Rattle kit is not on the PATH")
        os.environ["PATH"] = kit
        write(os.path.join(tools, "bin", "qemu-x86_64"), "", 0o755)
        lib = os.path.join(tools, "lib")
        wanted = [os.path.join(tools, "bin", "qemu-x86_64"), os.path.join(lib, "ld-linux-x86-64.so.2")]
        checks.that("the kit's emulator", programs.emulator("aarch64") == wanted + ["--library-path", lib])
    finally:
        os.environ["PATH"] = before


CHECKS = [
    check_when, check_removed, check_edited, check_two_at_once, check_failing, check_no_kit, check_rt_surroundings,
    check_unwritable, check_no_whole_reply, check_installed, check_emulator,
]
