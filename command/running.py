"""Runs another program so that it never outlives the command."""
import contextlib
import os
import signal
import subprocess
import time

from command.speaking import murmur

ENDING = signal.SIGHUP, signal.SIGINT, signal.SIGTERM
QUIET_SECONDS = 2
PARENT_DEATH_SIGNAL = 1  # of Linux's prctl


def kill(process, with_group):
    """Ends a process, with all that it started if it has a group of its own."""
    with contextlib.suppress(ProcessLookupError):
        if with_group:
            os.killpg(process.pid, signal.SIGKILL)
        elif process.returncode is None:
            process.kill()


@contextlib.contextmanager
def started(words, with_group=False, **options):
    """The process that the words start. A signal that ends the command ends the process first, and then the command."""
    heard, running = [], []

    def stop(number, _frame):
        heard.append(number)
        for process in running:
            kill(process, with_group)

    before = {number: signal.getsignal(number) for number in ENDING}
    for number, how in before.items():
        if how != signal.SIG_IGN:
            signal.signal(number, stop)
    try:
        with subprocess.Popen(words, start_new_session=with_group, **options) as process:
            running.append(process)
            try:
                if heard:
                    kill(process, with_group)
                yield process
            except BaseException:
                kill(process, with_group)
                raise
    finally:
        for number, how in before.items():
            signal.signal(number, how)
        if heard:
            os.kill(os.getpid(), heard[0])


def dying_with_command():
    """What a new process calls so that Linux ends it when the command is gone, however it went; None if it cannot."""
    try:
        import ctypes
        prctl = ctypes.CDLL(None).prctl
    except (ImportError, OSError, AttributeError):
        return None
    return lambda: prctl(PARENT_DEATH_SIGNAL, signal.SIGKILL)


class Silence:
    """Tells who waits at a terminal that a search goes on. It is told how long; it says nothing for two seconds."""

    def __init__(self):
        self.broken = False

    def lasts(self, seconds):
        """Writes for how long, over what it wrote before."""
        if seconds >= QUIET_SECONDS and os.isatty(2):
            self.broken = True
            murmur("\rwozgrzyt: searching for %d s" % seconds)

    def ends(self):
        """Ends the line, if there is one."""
        if self.broken:
            murmur("\n")


def answer(process, text, lasts):
    """What the process prints, given the text. `lasts` is called about once a second with the seconds so far."""
    began = time.monotonic()
    while True:
        try:
            return process.communicate(text, timeout=1)[0]
        except subprocess.TimeoutExpired:
            text = None
            lasts(time.monotonic() - began)


def run(words, text, patiently=False):
    """What a program prints, given the text, and its status. A patient call says how long it searches."""
    silence = Silence()
    options = {"preexec_fn": dying_with_command()} if patiently else {}
    with started(words, stdin=subprocess.PIPE, stdout=subprocess.PIPE, **options) as process:
        try:
            printed = answer(process, text, silence.lasts if patiently else lambda seconds: None)
        finally:
            silence.ends()
    return printed, process.returncode
