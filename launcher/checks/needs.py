"""What parts need before they run: rt, Debian's packages and the programs. Packages and programs are made side by side."""

import shutil
import sys
import tempfile
import time
from pathlib import Path

import programs as programs_of
from parts import TOP
from programs import Missing
from running import Command, end_all, reap_others


def needed(jobs):
    return {it for job in jobs for it in job.part.needs}


def need_rt(jobs):
    """Ends where the toolchain is missing that one of the jobs needs."""
    parts = ", ".join(job.part.name for job in jobs if "rt" in job.part.needs)
    if parts and not shutil.which("rt"):
        raise Missing(f"the toolchain's command rt isn't on the path, and needed for {parts}; nothing was run")


def make(jobs, programs=None):
    """Sets up the packages that the jobs need, and makes what is lacking of the programs; ends where it can't."""
    with tempfile.TemporaryDirectory(prefix="ctm-check-") as folder:
        setup = [Command([TOP / "tools/setup"], None, TOP)] if "packages" in needed(jobs) else []
        trials = programs_of.begun_trials(programs, Path(folder)) if programs else {}
        wait_for(setup, [*setup, *trials.values()])
        for target, command in trials.items():
            if command.status:
                raise Missing(f"rt try makes no program of {target}: {(command.said().splitlines() or ['it says nothing'])[-1]}")


def wait_for(setup, commands):
    """Waits until all have ended. A setup that fails ends the trials. One that goes on isn't broken off, for the sake of apt-get."""
    while not all([it.has_ended() for it in commands]) and not any(it.status for it in setup):
        reap_others(commands)
        time.sleep(0.05)
    for it in setup:
        if it.status:
            end_all()
        if it.fault:
            raise Missing(f"tools/setup can't be run: {it.fault}; nothing was run")
        if it.status:
            # It has said which packages are missing, in a line of its own.
            sys.exit(2)
