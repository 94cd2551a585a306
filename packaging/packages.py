"""tools/package [-o FOLDER] [--programs CTM_PROGRAM CTM_WAIT] makes the packages of the two programs: for Debian, as a
tarball, and as a wheel, with a bill of what they are made of and the checksums of all four. The programs are by default those
that ./ctm and ./ctm-wait build. tools/package --verify [-o FOLDER] compares what lies there with its checksums.
"""

import argparse
import os
import shutil
import subprocess
import sys
import tempfile
from pathlib import Path

sys.path.append(str(Path(__file__).resolve().parents[1] / "launcher"))  # for the table of words

from bill import bill_of
from built import TOP, UNKNOWN, Built, built_here
from deb import make_deb
from interruption import heed_interruption
from problem import Problem, fail, reason
from tarball import make_tarball
from tree import put
from verifying import SUMS, differences, sums_of
from wheel import make_wheel

COMMAND = "tools/package"


def main() -> None:
    """Makes the packages, and prints the path of each, or compares those that were made."""
    words = argparse.ArgumentParser(prog=COMMAND, description="Makes a .deb, a tarball and a wheel of the built programs, with a "
                                    "bill of materials in SPDX and checksums.")
    words.add_argument("-o", dest="folder", type=Path, default=Path("packages"),
                       help="where they are written; by default packages/")
    words.add_argument("--programs", nargs=2, type=Path, metavar=("CTM_PROGRAM", "CTM_WAIT"),
                       help="the built programs; by default those that ./ctm and ./ctm-wait build where they have to")
    words.add_argument("--verify", action="store_true", help="compare the packages that lie there with their checksums and their bill")
    given = words.parse_args()
    if given.verify:
        sys.exit(verify(given.folder))
    os.umask(0o022)
    heed_interruption()
    try:
        built = built_here(*(given.programs or programs_here()), handed=bool(given.programs))
        if built.commit == UNKNOWN:
            raise Problem("packages are made of a commit, and git finds none here")
        for path in make_all(built, given.folder.absolute()):
            print(path)
    except Problem as problem:
        fail(COMMAND, problem)
    except OSError as error:
        fail(COMMAND, f"{reason(error)}; nothing was made")
    except KeyboardInterrupt:
        fail(COMMAND, "interrupted; nothing was made")


def programs_here() -> list[Path]:
    """The programs of the repository, which are built where they have to be."""
    paths = []
    for command in ("ctm", "ctm-wait"):
        ended = subprocess.run([TOP / command, "--path"], stdout=subprocess.PIPE, text=True)
        if ended.returncode != 0:
            raise Problem(f"./{command} has built no program, so nothing was made")
        paths.append(Path(ended.stdout.strip()))
    return paths


def make_all(built: Built, folder: Path) -> list[Path]:
    """Makes all packages beside this folder, and then moves them into it."""
    folder.mkdir(parents=True, exist_ok=True)
    with tempfile.TemporaryDirectory(prefix=".made-", dir=folder) as work:
        made = []
        for make in (make_deb, make_tarball, make_wheel):
            place = Path(work) / make.__name__
            place.mkdir()
            made.append(make(built, place))
        made.append(Path(work) / f"ctm-{built.version}.spdx.json")
        put(made[-1], bill_of(built))
        made.append(Path(work) / SUMS)
        put(made[-1], sums_of(made[:-1]))
        return [Path(shutil.move(path, folder / path.name)) for path in made]


def verify(folder: Path) -> int:
    """Says whether all that was made and lies in a folder is as it was made; the status."""
    try:
        wrong = differences(folder)
    except OSError as error:
        fail(COMMAND, reason(error))
    except Problem as problem:
        fail(COMMAND, problem)
    for line in wrong:
        print(f"{COMMAND}: {line}", file=sys.stderr)
    if not wrong:
        print(f"{folder / SUMS}: the packages and their bill are as they were made")
    return 1 if wrong else 0


main()
