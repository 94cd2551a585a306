"""A call in a process of its own within limits of time and memory, and what of its end is a finding."""

import os
import re
import resource
import select
import signal
import traceback
from contextlib import suppress
from dataclasses import dataclass

SECONDS = 30  # of processor time; by the clock ten times as many, since the machine may have other work
# Of memory; none for a program that is built with checks at run time, which takes addresses without end.
BYTES = None if os.environ.get("CTM_TEST_BYTES") == "none" else 1_500_000_000
MOST_WRITTEN = 2_000_000_000


@dataclass(frozen=True)
class Ended:
    """The status of a process, below 0 by a signal, or none where it came to no end; and what it wrote on standard error."""

    status: int | None
    err: bytes

    def finding(self, statuses):
        """What shouldn't have been, or None: these are the statuses that a call may have."""
        last = self.err.strip().splitlines()[-1:]
        if self.status in (None, -signal.SIGXCPU):
            return f"no end within {SECONDS} s" + (" of processor time" if self.status else ", ten times by the clock")
        if self.status < 0:
            return signal.Signals(-self.status).name
        if b"Traceback (most recent call last)" in self.err:
            return f"a traceback: {last[0].decode(errors='replace')[:200]}"
        if re.search(rb"[Mm]emory", self.err):
            return f"more than {BYTES} bytes: {last[0].decode(errors='replace')[:200]}"
        return None if self.status in statuses else f"status {self.status}"


def called(does, folder, given=None):
    """What comes of a function that is called in a folder, over the file `given` as standard input."""
    with open(folder / "err", "w+b") as err, open(given or os.devnull, "rb") as source, open(os.devnull, "wb") as out:
        child = os.fork()
        if child == 0:
            become(does, folder, source, out, err)
        status = status_of(child)
        err.seek(0)
        return Ended(status, err.read(1_000_000))


def become(does, folder, source, out, err):
    """Does what is to be done in this process, and ends it."""
    status = 1
    try:
        os.setpgid(0, 0)
        os.chdir(folder)
        for number, stream in enumerate((source, out, err)):
            os.dup2(stream.fileno(), number)
        for it in signal.SIGINT, signal.SIGTERM, signal.SIGHUP, signal.SIGPIPE:
            signal.signal(it, signal.SIG_DFL)
        resource.setrlimit(resource.RLIMIT_CORE, (0, 0))
        resource.setrlimit(resource.RLIMIT_FSIZE, (MOST_WRITTEN, MOST_WRITTEN))
        resource.setrlimit(resource.RLIMIT_CPU, (SECONDS, SECONDS + 1))
        if BYTES:
            resource.setrlimit(resource.RLIMIT_AS, (BYTES, BYTES))
        does()
        status = 0
    except SystemExit as ended:
        status = ended.code if isinstance(ended.code, int) else 0 if ended.code is None else 1
    except BaseException:
        with suppress(BaseException):
            os.write(2, traceback.format_exc().encode())
    finally:
        os._exit(status)


def status_of(child):
    """Waits for the end of a process for so long, and ends all that it began."""
    handle = os.pidfd_open(child)
    try:
        ended = select.select([handle], [], [], 10 * SECONDS)[0]
    finally:
        os.close(handle)
        with suppress(ProcessLookupError, PermissionError):
            os.killpg(child, signal.SIGKILL)
    status = os.waitstatus_to_exitcode(os.waitpid(child, 0)[1])
    return status if ended else None
