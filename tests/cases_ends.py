"""How a call ends before its time, and what it says while it searches."""
import os
import pty
import re
import signal
import subprocess
import sys
import time

from cases_builds import ONE_BUS, REPLY
from cases_support import PROGRAM, REPORT, Checkout, write
from command import places

SLOW = "#!/bin/sh\necho $$ >\"$0.pid\"\nexec sleep 60\n"
SEARCH = "import sys; sys.path.insert(0, %r); from command import running; running.run(%r, b'', %r)"


def wait_for(path):
    """The number that a process writes into a file."""
    for _ in range(6000):
        if os.path.exists(path):
            with open(path, encoding="utf-8") as file:
                number = file.read()
            if number.endswith("\n"):
                return int(number)
        time.sleep(0.01)
    raise TimeoutError(path)


def is_running(number):
    """Whether a process runs; after its end it may wait for a moment to be collected."""
    for _ in range(1000):
        try:
            with open("/proc/%d/stat" % number, encoding="utf-8") as file:
                if file.read().rsplit(")", 1)[1].split()[0] == "Z":
                    return False
        except OSError:
            return False
        time.sleep(0.01)
    return True


def start(checkout, *arguments, ignored=()):
    """A call of a checkout's command that goes on. It ignores these signals, whatever the test itself ignores."""

    def hear():
        for number in (signal.SIGHUP, signal.SIGINT, signal.SIGTERM):
            signal.signal(number, signal.SIG_IGN if number in ignored else signal.SIG_DFL)

    process = subprocess.Popen([checkout.command, *arguments], env=checkout.surroundings(), stdin=subprocess.PIPE,
                               stdout=subprocess.PIPE, stderr=subprocess.PIPE, preexec_fn=hear)
    process.stdin.write(ONE_BUS)
    process.stdin.close()
    process.stdin = None
    return process


def check_signals(checks):
    """A signal that ends the command ends the search first."""
    checkout = Checkout(checks, "searching", SLOW)
    checkout.call("plan", "--help")
    for part, number in [("plan", signal.SIGTERM), ("plan", signal.SIGINT), ("plan", signal.SIGHUP),
                         ("plan", signal.SIGKILL), ("day", signal.SIGTERM)]:
        process = start(checkout, part)
        child = wait_for(checkout.at("target", "bin", part + ".pid"))
        process.send_signal(number)
        out, err = process.communicate(timeout=30)
        os.remove(checkout.at("target", "bin", part + ".pid"))
        what = "%s of a %s: %s %r %r" % (number.name, part, process.returncode, out, err)
        checks.that(what, process.returncode == -number and not out)
        checks.that("the search ends with it, by " + number.name, not is_running(child))


def check_signals_of_build(checks):
    """A signal that ends the command ends the build, with all that it started."""
    checkout = Checkout(checks, "building")
    checkout.rt_does('sleep 60 & echo $! >pid && wait\n')
    process = start(checkout, "day")
    child = wait_for(checkout.at("pid"))
    process.send_signal(signal.SIGTERM)
    out, err = process.communicate(timeout=30)
    checks.that("a build is ended: %r %r" % (out, err), process.returncode == -signal.SIGTERM and not out)
    checks.that("what the build started ends too", not is_running(child))


def check_ignored(checks):
    """A signal that the caller has the command ignore, as nohup does, ends nothing."""
    checkout = Checkout(checks, "ignoring", "#!/bin/sh\necho $$ >\"$0.pid\"\nsleep 0.5\nprintf '%s'\n" % REPORT)
    process = start(checkout, "day", ignored=[signal.SIGHUP])
    wait_for(checkout.at("target", "bin", "day.pid"))
    process.send_signal(signal.SIGHUP)
    out, err = process.communicate(timeout=30)
    checks.that("an ignored signal: %r" % err, (process.returncode, out) == (0, REPLY))


def said_at_terminal(words, patiently):
    """What a run says on standard error if that is a terminal."""
    ours, theirs = pty.openpty()
    code = SEARCH % (places.HOME, words, patiently)
    with subprocess.Popen([sys.executable, "-B", "-c", code], stdin=subprocess.DEVNULL, stderr=theirs) as process:
        os.close(theirs)
        said = b""
        try:
            while True:
                more = os.read(ours, 1000)
                if not more:
                    break
                said += more
        except OSError:
            pass
        process.wait()
    os.close(ours)
    return said


def signs(said):
    """The seconds that a search says, all on one line; none if it says another thing, or too early, or out of order."""
    if not re.fullmatch(rb"(\rwozgrzyt: searching for [0-9]+ s)+\r\n", said):
        return []
    seconds = [int(number) for number in re.findall(rb"[0-9]+", said)]
    return seconds if seconds[0] >= 2 and sorted(set(seconds)) == seconds else []


def check_sign_of_life(checks):
    """A search of over two seconds says for how long on a terminal, on one line, and a short one says nothing."""
    said = said_at_terminal(["sleep", "4.3"], True)
    checks.that("a long search: %r" % said, len(signs(said)) > 1)
    checks.that("a short search says nothing", said_at_terminal(["sleep", "0.2"], True) == b"")
    code = SEARCH % (places.HOME, ["sleep", "2.4"], True)
    done = subprocess.run([sys.executable, "-B", "-c", code], capture_output=True, check=False)
    checks.that("no terminal, no sign", (done.returncode, done.stdout, done.stderr) == (0, b"", b""))


def check_plan_is_patient(checks):
    """The planning program is run so that it says how long it searches; the day report is not."""
    checkout = Checkout(checks, "patient", PROGRAM % REPORT)
    checkout.call("plan", text=ONE_BUS)
    write(checkout.at("target", "bin", "plan"), "#!/bin/sh\ncat >/dev/null\nsleep 2.4\nprintf '%s'\n" % REPORT, 0o755)
    ours, theirs = pty.openpty()
    process = subprocess.Popen([checkout.command, "plan"], env=checkout.surroundings(), stdin=subprocess.DEVNULL,
                               stdout=subprocess.PIPE, stderr=theirs)
    out, _ = process.communicate(timeout=30)
    said = os.read(ours, 1000)
    os.close(theirs)
    os.close(ours)
    checks.that("a plan at a terminal: %r" % said, out == REPLY and len(signs(said)) == 1)


CHECKS = [check_signals, check_signals_of_build, check_ignored, check_sign_of_life, check_plan_is_patient]
