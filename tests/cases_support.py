"""What the parts of tests/cases share: calling the command, counting checks, and a checkout in miniature."""
import collections
import os
import shutil
import subprocess
import sys
import tempfile
import traceback

TOP = os.path.dirname(os.path.dirname(os.path.realpath(__file__)))
Called = collections.namedtuple("Called", "status out err")
TOOLS = "sh cat sleep cp mkdir chmod touch neato".split()
KIT = "kit-for-tests 7"
NOBODY = 65534

# What the real rt does too: it leaves the program in the folder out/ of its crate.
RT = """#!/bin/sh
echo "$*" >>"{home}/calls"
[ "$1" != doc ] || {{ echo "{home}/kit/docs/START-HERE.md"; exit 0; }}
[ "$1" = run ] || {{ echo "{kit}"; exit 0; }}
crate=${{PWD##*/}}
cd ../..
echo "begin $crate" >>"{home}/calls"
[ ! -e "{home}/rt-does" ] || . "{home}/rt-does"
mkdir -p crates/$crate/out
cp program crates/$crate/out/$crate && chmod 755 crates/$crate/out/$crate
echo "rt: $crate proved"
echo "end $crate" >>"{home}/calls"
"""
# On another machine than x86-64 an emulator is given a loader, an option, a folder and then the program.
EMULATOR = "#!/bin/sh\nshift 3\nexec \"$@\"\n"
MACHINE = os.uname().machine
PROGRAM = "#!/bin/sh\ncat >/dev/null\nprintf '%s'\n"
REPORT = "observed\\t0\\t1\\nxv\\tyes\\nend\\n"


def stored(*names):
    """The bytes of a file of the repository."""
    with open(os.path.join(TOP, *names), "rb") as file:
        return file.read()


def write(path, content, mode=0o644):
    """Writes a file and answers its path."""
    with open(path, "wb") as file:
        file.write(content if isinstance(content, bytes) else content.encode())
    os.chmod(path, mode)
    return path


def lines_of(called):
    """How many lines are on standard error."""
    return called.err.count(b"\n")


class Checks:
    """Counts what held and what did not, and has a folder for files."""

    def __init__(self, command):
        self.command = command
        self.passed = self.failed = 0

    def __enter__(self):
        self.room = tempfile.mkdtemp()
        os.chmod(self.room, 0o755)
        self.path = os.path.join(self.room, "tools")
        os.mkdir(self.path)
        for tool in TOOLS:
            if shutil.which(tool):
                os.symlink(shutil.which(tool), os.path.join(self.path, tool))
        os.symlink(sys.executable, os.path.join(self.path, "python3"))
        return self

    def __exit__(self, *_):
        shutil.rmtree(self.room)

    def run(self, check):
        """Runs a check. One that breaks off has failed."""
        try:
            check(self)
        except Exception:
            self.that("%s breaks off: %s" % (check.__name__, traceback.format_exc()), False)

    def that(self, what, holds, called=None):
        """Counts whether something holds."""
        if holds:
            self.passed += 1
            return
        self.failed += 1
        print("failed: " + what)
        if called is not None:
            print("    status %d, printed %r, said %r" % called)

    def call(self, *arguments, command=None, text=b"", **options):
        """Calls the command with a text as standard input."""
        if "stdin" not in options:
            options["input"] = text
        options.setdefault("stdout", subprocess.PIPE)
        options.setdefault("stderr", subprocess.PIPE)
        options.setdefault("env", self.surroundings())
        done = subprocess.run([command or self.command, *arguments], timeout=600, check=False, **options)
        return Called(done.returncode, done.stdout, done.stderr)

    def surroundings(self, **others):
        """This environment, with this interpreter first on the PATH."""
        path = os.path.dirname(sys.executable) + os.pathsep + os.environ.get("PATH", "")
        kept = {name: value for name, value in os.environ.items() if not name.startswith("PYTHON")}
        return {**kept, "PATH": path, **others}

    def stops(self, what, called, *words):
        """Counts whether a call ended with 2, printed nothing and said so in one line that has these words."""
        said = all(word.encode() in called.err for word in words)
        self.that(what, called.status == 2 and not called.out and said and lines_of(called) == 1, called)

    def refuses(self, what, called, reply, *words):
        """Counts whether a call ended with 1, printed this refusal and said one line that has these words."""
        said = all(word.encode() in called.err for word in words)
        self.that(what, called.status == 1 and called.out == reply and said and lines_of(called) == 1, called)


class Checkout:
    """A checkout in miniature: the command with a stand-in for rt, which copies `program` as what it built."""

    def __init__(self, checks, name, program=PROGRAM % REPORT):
        self.checks = checks
        self.home = os.path.join(checks.room, name)
        self.command = os.path.join(self.home, "wozgrzyt")
        os.makedirs(os.path.join(self.home, "crates", "grid"))
        os.makedirs(os.path.join(self.home, "bin"))
        shutil.copy(os.path.join(TOP, "wozgrzyt"), self.command)
        shutil.copy(os.path.join(TOP, "VERSION"), self.home)
        copy_modules(self.home)
        for name in ("day", "plan", "rounds"):
            os.makedirs(self.at("crates", name))
        for name in ("crates.txt", "crates/grid/lib.rt"):
            self.edit(name)
        self.program(program)
        write(self.at("bin", "rt"), RT.format(home=self.home, kit=KIT), 0o755)
        os.makedirs(self.at("kit", "on", MACHINE, "toolchain", "bin"))
        write(self.at("kit", "on", MACHINE, "toolchain", "bin", "qemu-x86_64"), EMULATOR, 0o755)

    def at(self, *names):
        """The path of a file."""
        return os.path.join(self.home, *names)

    def edit(self, name):
        """Changes a source."""
        with open(self.at(name), "a", encoding="utf-8") as file:
            file.write("changed\n")

    def program(self, script):
        """Says what the next build makes."""
        write(self.at("program"), script, 0o755)

    def rt_does(self, script):
        """Says what rt does before it builds."""
        write(self.at("rt-does"), script)

    def surroundings(self, with_kit=True, **others):
        """An environment with the tools, and with rt if wanted."""
        path = [self.at("bin")] if with_kit else []
        return self.checks.surroundings(PATH=os.pathsep.join(path + [self.checks.path]), **others)

    def call(self, *arguments, **options):
        """Calls this checkout's command."""
        options.setdefault("env", self.surroundings())
        return self.checks.call(*arguments, command=options.pop("command", self.command), **options)

    def builds(self):
        """What rt was asked to build so far, with its begin and end."""
        if not os.path.exists(self.at("calls")):
            return []
        with open(self.at("calls"), encoding="utf-8") as file:
            return [line for line in file.read().splitlines() if line.split()[0] in ("begin", "end")]


def copy_modules(home):
    """Copies the command's modules into a folder."""
    shutil.copytree(os.path.join(TOP, "command"), os.path.join(home, "command"),
                    ignore=shutil.ignore_patterns("__pycache__"))
