"""What is packaged: the built programs, and the sources, commit and toolchain that they are of."""

import hashlib
import subprocess
from dataclasses import dataclass
from pathlib import Path

from problem import Problem
from word_table import read_table

TOP = Path(__file__).resolve().parents[1]
PROGRAMS = ("ctm_program", "ctm_wait")
# All that packages are made of, as git takes its names, with what their pages link to. Other files may come and go.
PACKAGED = ("crates", "crates.txt", "launcher", "packaging", "tools", "docs", "examples", "bench", "README.md", "CHANGELOG.md",
            "CONTRIBUTING.md", "SECURITY.md", "LICENSE-*")
UNKNOWN = "unknown"


@dataclass(frozen=True)
class Built:
    """Where the two programs lie, and what is told of them."""

    program: Path
    waiting_program: Path
    commit: str
    commit_date: str
    seconds: int  # of the commit, since 1970
    changed: bool  # whether files that are packaged differ from the commit's
    kit: str
    sources: str
    handed: bool  # whether the programs are another's, which nothing was built for here

    @property
    def version(self) -> str:
        """The version, as the table of words has it."""
        return read_table().version

    @property
    def line(self) -> str:
        """What the installed ctm answers to --version."""
        if self.commit == UNKNOWN:
            return f"ctm {self.version}, commit {UNKNOWN}"
        changed = ", with changes that are not committed" if self.changed else ""
        return f"ctm {self.version}, commit {self.commit[:8]} of {self.commit_date}{changed}"

    @property
    def note(self) -> str:
        """The text of BUILD."""
        sums = zip(PROGRAMS, (self.program, self.waiting_program))
        return "\n".join([self.line, f"commit: {self.commit}", f"kit: {self.kit}",
                          f"sources: sha256 {self.sources}, of the lines of sha256sum for crates.txt and crates",
                          *(f"{name}: sha256 {hashlib.sha256(path.read_bytes()).hexdigest()}" for name, path in sums),
                          f"reproduce: {self.made_again_by}"]) + "\n"

    @property
    def made_again_by(self) -> str:
        """The line that makes the packages again, or why there is none."""
        if self.commit == UNKNOWN:
            return "git gave no commit of these files"
        if self.changed:
            return "no commit has these files"
        line = f"git checkout {self.commit} && tools/package"
        return f"{line}, where that builds these programs, which were handed to it" if self.handed else line


def built_here(program: Path, waiting_program: Path, handed: bool = False) -> Built:
    """These programs, built of what stands in the repository, or said to be where they were handed."""
    commit, _, rest = output_of("git", "log", "-1", "--format=%H %cs %ct").partition(" ")
    date, _, seconds = rest.partition(" ")
    # A call that is broken off would leave the lock of git's index.
    changed = output_of("git", "--no-optional-locks", "status", "--porcelain", "--", *PACKAGED)
    return Built(program, waiting_program, commit or UNKNOWN, date, int(seconds or 0), bool(changed),
                 output_of("rt", "version") or UNKNOWN, sum_of_sources(), handed)


def sum_of_sources() -> str:
    """The checksum by which ./ctm knows whether a built program is of its sources."""
    asks = 'set -o pipefail; top=$1 target=ctm_program; . "$top/launcher/current"; sum_of_sources'
    made = output_of("bash", "-c", asks, "bash", str(TOP))
    if not made:
        raise Problem("the checksum of the sources takes find, sort, xargs and sha256sum of the path; nothing was made")
    return made.split()[0]


def output_of(*command: str) -> str:
    """What a command writes at the top, or nothing where it fails."""
    try:
        ended = subprocess.run(command, cwd=TOP, stdout=subprocess.PIPE, stderr=subprocess.DEVNULL, text=True)
    except FileNotFoundError:
        return ""
    return ended.stdout.strip() if ended.returncode == 0 else ""
