"""A small repository with ./ctm and ./ctm-wait, and a stand-in for the toolchain, which sleeps in place of proving."""

import shutil
import signal
import subprocess
import time
from pathlib import Path

TOP = Path(__file__).resolve().parents[1]
PROGRAM = r"""#!/usr/bin/env bash
case "$1" in
  run) cat; echo done; [ "${FAILS-}" = "" ] || { echo 'ctm: no memory' >&2; exit 7; } ;;
  *) echo 'ctm: words refused' >&2; exit 2 ;;
esac
"""
WAITING = """#!/usr/bin/env bash
cat
echo "by $*"
"""
CRATES = "low:\nlong: low\nside: low\nother:\ntop: long side\nctm_program: top other\nctm_wait: top\nunused: low\n"
JOBS = 4
PATIENCE = 600  # seconds that a call may take at most, since a machine that is busy takes long over what is quick
SECONDS = {"low": 0.2, "long": 1.2, "side": 0.3, "other": 0.3, "top": 0.2, "ctm_program": 0.2, "ctm_wait": 0.2, "unused": 9}


def heed_signals():
    """Whoever runs the tests may ignore signals, as nohup does, and a shell can't heed those that it finds ignored."""
    for number in signal.SIGINT, signal.SIGTERM, signal.SIGHUP:
        signal.signal(number, signal.SIG_DFL)


def slowness():
    """How many times as long as on a machine with nothing else to do something takes now."""
    begun, worked = time.perf_counter(), time.process_time()
    while time.process_time() - worked < 0.2:
        pass
    return max(1.0, (time.perf_counter() - begun) / 0.2)


class Repository:
    """A small repository with the launcher, in which tests/fake_rt stands for rt and tests/fake_rattle for the prover."""

    def __init__(self, folder, has_rt=True):
        self.top = Path(folder) / "repository"
        self.bin = Path(folder) / "bin"
        self.log = Path(folder) / "log"
        self.trial = Path(folder) / "trial"
        self.passing = Path(folder) / "passing"
        self.bin.mkdir()
        self.passing.mkdir()
        if has_rt:
            shutil.copy(TOP / "tests/fake_rt", self.bin / "rt")
            for command in "rattle", "rattle-link":
                shutil.copy(TOP / "tests/fake_rattle", self.bin / command)
        self.top.mkdir()
        for command in ("ctm", "ctm-wait"):
            shutil.copy(TOP / command, self.top)
        shutil.copytree(TOP / "launcher", self.top / "launcher", ignore=shutil.ignore_patterns("__pycache__"))
        rows = "".join(f"{name},1,{round(100 * seconds)},none,1\n" for name, seconds in SECONDS.items())
        (self.top / "launcher/check_times.csv").write_text(f"crate,functions,proof,tests,edits\n{rows}")
        (self.top / "crates.txt").write_text(CRATES)
        for name, seconds in SECONDS.items():
            source = self.top / "crates" / name / "src"
            source.mkdir(parents=True)
            (source / "lib.rt").write_text(f"// {name}\n")
            (source / "seconds").write_text(f"{seconds}\n")
        (self.top / "crates/ctm_program/src/program.sh").write_text(PROGRAM)
        (self.top / "crates/ctm_wait/src/program.sh").write_text(WAITING)

    @property
    def environment(self):
        return {"PATH": f"{self.bin}:/usr/bin:/bin", "HOME": str(self.top), "CTM_JOBS": str(JOBS),
                "TMPDIR": str(self.passing), "FAKE_RT_LOG": str(self.log), "FAKE_RT_TRY": str(self.trial)}

    def start(self, *words, command="ctm", **how):
        how = {"stdin": subprocess.DEVNULL, "stdout": subprocess.PIPE, "stderr": subprocess.PIPE,
               "preexec_fn": heed_signals, **how}
        return subprocess.Popen([self.top / command, *words], env=self.environment, **how)

    def call(self, *words, given=b"", **how):
        """The status of ./ctm or of another command, and what it wrote on out and err, as text."""
        process = self.start(*words, stdin=subprocess.PIPE, **how)
        out, err = process.communicate(given, timeout=PATIENCE)
        return process.returncode, out.decode(), err.decode()

    def events(self, *kinds):
        """What fake_rattle noted since it was last asked: the kind of the event, the crate and its jobs."""
        lines = self.log.read_text().splitlines() if self.log.exists() else []
        self.log.write_text("")
        return [tuple(line.split()[1:]) for line in lines if not kinds or line.split()[1] in kinds]

    def proved(self):
        return [name for _, name, _ in self.events("began")]

    def goes_on_until(self, name, *events):
        """The crate is at work until these stand in the log, as `ended side`, however slow the machine is."""
        (self.top / "crates" / name / "src/until").write_text("".join(f"{event}\n" for event in events))

    def edit(self, name, text="// changed\n"):
        with open(self.top / "crates" / name / "src/lib.rt", "a") as file:
            file.write(text)
