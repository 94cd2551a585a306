"""The proved program: where it is, which options it takes, and a call of it over bytes."""

from __future__ import annotations

import os
from collections.abc import Callable, Sequence
from contextlib import suppress
from contextvars import ContextVar
from dataclasses import dataclass
from functools import lru_cache, partial
from pathlib import Path
from typing import IO

from ..problem import Problem, one_line, reason
from .interrupt import INTERRUPTS

TOP = Path(__file__).resolve().parents[3]
MOST_RECORDED = 4_000_000  # cells times recorded steps, docs/FORMAT.md
SMALLEST = b"ctm,1\nsteps,1\nexit,x,0\n"
NOT_BUILT = 125
OF_THE_INPUT = (3, 4, 8, 9)  # statuses by which the program refuses its input, docs/FORMAT.md
BUILD_NEWS = b"./ctm: "

News = Callable[[str], object]  # takes the lines that ./ctm says while it builds
NEWS: ContextVar[News | None] = ContextVar("news", default=None)  # who takes them where a call names nobody


@dataclass(frozen=True)
class Answer:
    """What the program answered: its exit status and the bytes on both its outputs."""

    status: int
    out: bytes
    err: bytes

    @property
    def line(self) -> str:
        """The line that the program wrote on why there is no text."""
        return one_line(self.err.decode("utf-8", "replace"))


@dataclass(frozen=True)
class Found:
    """The program that the tools call, and what says that it is this one."""

    path: Path
    by: str


def program_path() -> Path:
    """The path of the program that the tools call."""
    return found_program().path


def found_program() -> Found:
    """The program: what the variable CTM_PROGRAM names, else the repository's own, else the packaged one, else `ctm` on the
    path."""
    named = os.environ.get("CTM_PROGRAM")
    if named:
        return Found(_standing(Path(named).resolve()), "which CTM_PROGRAM names")
    if (TOP / "ctm").is_file():
        return Found(TOP / "ctm", "the repository's own")
    packaged = of_the_package("ctm_program")
    if packaged:
        return Found(packaged, "the packaged one")
    from shutil import which

    on_path = which("ctm")
    if on_path:
        return Found(Path(on_path).resolve(), "ctm on the path")
    raise Problem("no program was found: CTM_PROGRAM names none, there is none in a repository or a package of ctm around "
                  f"{Path(__file__).resolve().parents[1]}, and no ctm on the path")


def keep_folders_from_root() -> None:
    """Leaves in PATH the folders that are named from the root on, so that no program is taken from the folder where one stands."""
    folders = os.environ.get("PATH", os.defpath).split(os.pathsep)
    os.environ["PATH"] = os.pathsep.join(filter(os.path.isabs, folders)) or os.defpath  # an empty one is this folder


def of_the_package(name: str) -> Path | None:
    """A file of lib/ctm of the package in which the tools are, where they are in one."""
    return next((path for lib in _libs() if (path := lib / "ctm" / name).is_file()), None)


def documents() -> Path | None:
    """The folder of documents and examples of the package in which the tools are, where it has both."""
    return next((path for lib in _libs() if ((path := lib.parent / "share/doc/ctm") / "docs").is_dir()), None)


def examples() -> Path | None:
    """The folder of examples of the repository or the package in which the tools are, where it has them."""
    folders = [TOP / "examples", *(lib.parent / "share/doc/ctm/examples" for lib in _libs())]
    return next((folder for folder in folders if (folder / "bottleneck.toml").is_file()), None)


def _libs() -> list[Path]:
    return [folder for folder in Path(__file__).resolve().parents if folder.name == "lib"]


def _standing(path: Path) -> Path:
    if not path.exists():
        raise Problem(f"{path}: there is no program there, and CTM_PROGRAM names it")
    return path


def in_words(program: str | Path | None = None) -> str:
    """A program in words: its path, and where it is the one that the tools found what says so."""
    with suppress(Problem):
        found = found_program()
        if program is None or Path(program) == found.path:
            return f"{found.path} ({found.by})"
    return str(program)


def why(answer: Answer, program: str | Path | None = None) -> str:
    """Why there is no text: the program's own line, and which program it is where its input isn't at fault."""
    if not answer.line:
        return f"{in_words(program)} ended with status {answer.status}"
    return answer.line if answer.status in OF_THE_INPUT else f"{answer.line}; the program is {in_words(program)}"


def ask(words: Sequence[str], content: bytes, program: str | Path | None = None, news: News | None = None) -> Answer:
    """The program's answer to words and bytes. What `./ctm` says while it builds goes to `news`, line by line."""
    from subprocess import PIPE

    from .processes import aside, called, ended

    told_of, program, news = in_words(program), str(program or program_path()), news or NEWS.get()
    told: list[str] = []
    kept: list[bytes] = []

    def read_errors(stream: IO[bytes]) -> None:
        for line in stream:
            if line.startswith(BUILD_NEWS):
                told.append(line.decode("utf-8", "replace").rstrip())
                if news and not INTERRUPTS.came:  # that it was interrupted too is nothing new
                    news(told[-1])
            else:
                kept.append(line)

    try:
        with called([program, *words], stdin=PIPE, stdout=PIPE, stderr=PIPE) as process:
            assert process.stdin and process.stdout and process.stderr  # they are pipes
            out = aside(process.stdout.read)
            status = ended(process, out, aside(partial(read_errors, process.stderr)), aside(partial(_write, process.stdin, content)))
    except OSError as error:
        raise Problem(f"{told_of}: {reason(error)}") from None
    if status == NOT_BUILT and told:
        raise Problem(one_line(told[-1]))
    if status < 0:
        raise Problem(f"{told_of} was ended by signal {-status}")
    return Answer(status, out.result(), b"".join(kept))


def _write(stream: IO[bytes], content: bytes) -> None:
    with suppress(BrokenPipeError):
        stream.write(content)
        stream.close()


def takes(option: str, program: str | Path | None = None, value: str = "1") -> bool:
    """Whether `run` takes an option with a value, asked of the program itself over the smallest network."""
    return _takes(option, value, str(program or program_path()))


@lru_cache(maxsize=None)
def _takes(option: str, value: str, program: str) -> bool:
    return ask(("run", option, value), SMALLEST, program).status == 0


def need_records(program: str | Path | None = None) -> None:
    """Refuses a program that records nothing."""
    if not takes("--every", program):
        raise Problem(f"{in_words(program)} takes no --every, so it records nothing; build the newest ctm")


def run_words(every: int, workers: int = 1, program: str | Path | None = None) -> list[str]:
    """The words of a run that is recorded each `every` steps (0 for never), on `workers` threads where it takes any."""
    words = ["run"]
    if every:
        need_records(program)
        words += ["--every", str(every)]
    if workers > 1 and takes("--workers", program):
        words += ["--regions", regions_for(workers, program), "--workers", str(workers)]
    return words


def regions_for(workers: int, program: str | Path | None = None) -> str:
    """Into how many regions a network is cut for so many workers: as the program chooses, where it does."""
    if workers == 1:
        return "1"
    return "auto" if takes("--regions", program, "auto") else str(min(512, 8 * workers))


def recording_step(steps: int, cells: int) -> int:
    """The least E with which a run of so many steps and cells is recorded within the program's limit."""
    every = max(1, -(-steps * cells // MOST_RECORDED))
    while (steps // every + 1 + (steps % every > 0)) * cells > MOST_RECORDED:
        every += 1
        if every > steps and 2 * cells > MOST_RECORDED:
            return 0
    return every
