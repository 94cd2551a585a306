"""Commands that run side by side, each with all that it says in a file. What ends them ends all that they began."""

import ctypes
import os
import signal
import subprocess
import time
from contextlib import nullcontext, suppress
from pathlib import Path

CHILD_SUBREAPER = 36  # of prctl(2)
SIGNALS = (signal.SIGINT, signal.SIGTERM, signal.SIGHUP)
SECONDS_TO_END = 1.0  # what still runs then is killed
NOT_STARTED = 127


class Interrupted(BaseException):
    """A signal asked for an end."""

    def __init__(self, number):
        super().__init__(number)
        self.number = number


class Command:
    """A command that runs, and then its status and its seconds by the clock and of processors. Without a log it prints itself."""

    def __init__(self, words, environment, folder, log=None):
        self.log, self.began, self.fault = log, time.monotonic(), ""
        self.status, self.seconds, self.processor_seconds, self.process = None, 0.0, 0.0, None
        with open(log, "wb") if log else nullcontext() as out:
            # A group of its own, so that Ctrl-C reaches this process alone; but processes of sudo end by Ctrl-C alone.
            streams = {"stdout": out, "stderr": subprocess.STDOUT, "process_group": 0} if log else {}
            try:
                self.process = subprocess.Popen([str(it) for it in words], env=environment, cwd=folder, stdin=subprocess.DEVNULL,
                                                **streams)
            except OSError as error:
                self.fault, self.status = error.strerror, NOT_STARTED
                if log:
                    out.write(f"{words[0]}: {self.fault}\n".encode())

    def has_ended(self):
        if self.status is None:
            ended, status, used = os.wait4(self.process.pid, os.WNOHANG)
            if ended:
                code = os.waitstatus_to_exitcode(status)
                self.process.returncode = code
                self.status = code if code >= 0 else 128 - code
                self.seconds = time.monotonic() - self.began
                self.processor_seconds = used.ru_utime + used.ru_stime
        return self.status is not None

    def said(self):
        return self.log.read_text(errors="replace")


def heed_signals():
    """From now on a signal that asks for an end raises Interrupted, and what loses its parent stays below this process."""
    ctypes.CDLL(None).prctl(CHILD_SUBREAPER, 1, 0, 0, 0)
    for number in SIGNALS:
        # What nohup has ignored stays so.
        if signal.getsignal(number) is not signal.SIG_IGN:
            signal.signal(number, interrupt)


def interrupt(number, _):
    # A second signal isn't to break off what the first one begins.
    for it in SIGNALS:
        signal.signal(it, signal.SIG_IGN)
    raise Interrupted(number)


def reap_others(commands):
    """Lets go what lost its parent and has ended."""
    own = {it.process.pid for it in commands if it.process}
    with suppress(ChildProcessError):
        while (ended := os.waitid(os.P_ALL, 0, os.WEXITED | os.WNOHANG | os.WNOWAIT)) and ended.si_pid not in own:
            os.waitpid(ended.si_pid, 0)


def below_this():
    """The processes that this one began, and those that they began, which haven't ended."""
    parents = {}
    for path in Path("/proc").glob("[0-9]*/stat"):
        with suppress(OSError):
            state, parent = path.read_text(errors="replace").rpartition(")")[2].split()[:2]
            if state != "Z":
                parents[int(path.parent.name)] = int(parent)
    found, last = set(), {os.getpid()}
    while last:
        last = {pid for pid, parent in parents.items() if parent in last} - found
        found |= last
    return found


def end_all():
    """Ends all that was begun, within two seconds: what isn't gone after one is killed."""
    kill(below_this(), signal.SIGTERM)
    began = time.monotonic()
    while (left := below_this()) and time.monotonic() < began + 2 * SECONDS_TO_END:
        if time.monotonic() > began + SECONDS_TO_END:
            kill(left, signal.SIGKILL)
        with suppress(ChildProcessError):
            os.waitpid(-1, os.WNOHANG)
        time.sleep(0.02)


def kill(processes, number):
    for pid in processes:
        # A process of another user, as that of sudo, ends by the terminal's own signal.
        with suppress(ProcessLookupError, PermissionError):
            os.kill(pid, number)
