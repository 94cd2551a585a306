"""The programs that the parts run: those that the environment names, those that are built, or those of trials."""

import os
import shutil
import subprocess
import sys
from dataclasses import dataclass
from pathlib import Path

from parts import TOP
from running import Command
from trial import kept_trial, keeps

NAMED = {"ctm_program": "CTM_PROGRAM", "ctm_wait": "CTM_WAIT_PROGRAM"}
ASKS = 'top=$1; target=$2; . "$top/launcher/current"; is_current'


class Missing(Exception):
    """Something is missing without which nothing can be run."""


@dataclass(frozen=True)
class Programs:
    """The paths of both programs, and in words which they are."""

    program: Path
    waiting: Path
    told: str
    are_tried: bool = False
    lacking: tuple[str, ...] = ()  # those of trials that are yet to be made

    def environment(self):
        """What tells the parts of them. A program with checks at run time takes addresses without end."""
        given = {"CTM_PROGRAM": str(self.program), "CTM_WAIT_PROGRAM": str(self.waiting)}
        return {**given, "CTM_TEST_BYTES": "none"} if self.are_tried else given


def built(target):
    """Where the proved program is built."""
    return TOP / "crates" / target / "out" / target


def of_proofs():
    """The programs that the part `proofs` builds."""
    return Programs(*map(built, NAMED), "the programs are those that the part proofs builds")


def is_current(target):
    """Whether the proved program is that of the sources that stand here."""
    return subprocess.run(["bash", "-c", ASKS, "bash", TOP, target], stdout=subprocess.DEVNULL).returncode == 0


def chosen(say, is_shortened=True):
    """The programs that are there, or trials of the sources, of which some may be yet to be made; says which they are, and where
    a part is shortened on trials, how.
    """
    programs = found()
    if programs:
        say(programs.told)
    return programs or tried(say, is_shortened)


def found():
    """The programs that the environment names, or the proved ones where they are current, or None."""
    names = [os.environ.get(it, "") for it in NAMED.values()]
    if any(names):
        for variable, name in zip(NAMED.values(), names):
            if not (os.path.isfile(name) and os.access(name, os.X_OK)):
                raise Missing(f"{variable} names no program: {name or 'it is empty, and the other is not'}")
        # The parts run in other folders than where one stands.
        paths = (Path(name).absolute() for name in names)
        return Programs(*paths, f"the programs are those that {' and '.join(NAMED.values())} name")
    if all(map(is_current, NAMED)):
        return Programs(*map(built, NAMED), "the programs are the proved ones, which are current")
    return None


def tried(say, is_shortened):
    """Programs that `rt try` makes of the sources that stand here, with checks at run time and without a proof."""
    told = "the programs are those that ./ctm --try makes, without a proof and with checks at run time"
    lacking = tuple(target for target in NAMED if not keeps(target))
    if lacking and not shutil.which("rt"):
        raise Missing("no program is built of what stands here, and the toolchain's command rt, which makes one, isn't on the path")
    shortened = ", the examples run by fewer workers and regions, and the tests without the cases that take longest on them"
    say(f"no program is built of what stands here, so {told}{shortened if is_shortened else ''}"
        f"{'; to make them takes a minute or two' if lacking else ''}")
    return Programs(*map(kept_trial, NAMED), told, are_tried=True, lacking=lacking)


def begun_trials(programs, folder):
    """The commands that make what is lacking of the programs, by its name. What they say comes into the folder."""
    words = [sys.executable, "-B", Path(__file__).with_name("trial.py")]
    return {it: Command([*words, it], dict(os.environ), TOP, folder / it) for it in programs.lacking}
