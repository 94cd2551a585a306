"""launcher/checks/trial.py TARGET keeps the program that `rt try` makes of a crate, which has checks at run time and no proof.

rt removes it when the trial ends. So the trial is given a run of minutes, and ended as soon as the program runs and is copied.
"""

import os
import shutil
import signal
import subprocess
import sys
import tempfile
import time
from pathlib import Path

TOP = Path(__file__).resolve().parents[2]
sys.path.insert(0, str(TOP / "launcher"))

from crates import Crates

WORDS = {"ctm_program": ["run"], "ctm_wait": ["1"]}
ROADS, STEPS = 20_000, 100_000
SMALLEST = b"ctm,1\nsteps,1\nexit,x,0\n"
SECONDS = 600  # until a trial that makes nothing is given up


def kept_trial(target):
    """Where the program of a trial is kept."""
    return TOP / "crates" / target / "out" / "tried" / target


def checksum(target):
    crates = Crates(TOP, target)
    return crates.sums({name: crates.own_sum(name) for name in crates.names})[target]


def keeps(target):
    """Whether the program is kept of what stands here."""
    program = kept_trial(target)
    record = program.with_name("sum")
    return program.is_file() and record.is_file() and record.read_text() == checksum(target)


def long_run():
    """A network whose run takes minutes."""
    cells = ["g", *(f"r{at}" for at in range(ROADS)), "x"]
    records = ["ctm,1", f"steps,{STEPS}", "gate,g,9,9", *(f"road,{it},40,9,1,2,0" for it in cells[1:-1]), "exit,x,9"]
    return "\n".join([*records, *(f"link,{a},{b}" for a, b in zip(cells, cells[1:]))]) + "\n"


def begun_program(folder):
    """The program of the trial, once it runs: rt lays what it reads and writes beside it."""
    return next((path for path in folder.glob("*/*/program") if path.with_name("stdout").exists()), None)


def keep(target):
    """Keeps the program; returns what rt said where it makes none."""
    made, before = kept_trial(target), checksum(target)
    made.parent.mkdir(parents=True, exist_ok=True)
    # The program before it may be replaced by one that fails.
    made.with_name("sum").unlink(missing_ok=True)
    with tempfile.TemporaryDirectory(prefix="ctm-trial-") as folder:
        folder = Path(folder)
        (folder / "network").write_text(long_run())
        with open(folder / "network") as network, open(folder / "said", "w") as said:
            trial = subprocess.Popen(["rt", "try", "--seconds", str(SECONDS), "--", *WORDS[target]], cwd=TOP / "crates" / target,
                                     env={**os.environ, "TMPDIR": str(folder)}, stdin=network, stdout=said, stderr=said)
        try:
            if not copied(trial, folder, made):
                return (folder / "said").read_text(errors="replace") or "it makes none"
        finally:
            trial.send_signal(signal.SIGTERM)
            trial.wait()
    ended = subprocess.run([made, *WORDS[target]], input=SMALLEST, stdout=subprocess.DEVNULL).returncode
    if ended:
        return f"the program ends in status {ended} on the smallest network"
    made.with_name("sum").write_text(before)
    return ""


def copied(trial, folder, made):
    """Whether the trial came to a program, which is then copied."""
    while trial.poll() is None:
        program = begun_program(folder)
        if program:
            part = made.with_name(f"{made.name}.{os.getpid()}")
            shutil.copy(program, part)
            part.replace(made)
            return True
        time.sleep(0.1)
    return False


if __name__ == "__main__":
    signal.signal(signal.SIGTERM, lambda *_: sys.exit(143))
    why = keep(sys.argv[1])
    print(why, end="")
    sys.exit(1 if why else 0)
