"""installation.py install PREFIX CTM_PROGRAM CTM_WAIT, or uninstall PREFIX: what ./ctm --install and --uninstall call."""

import os
import sys
import tempfile
from pathlib import Path

sys.path.append(str(Path(__file__).resolve().parents[1] / "launcher"))  # for the table of words

from built import TOP, built_here
from interruption import heed_interruption
from prefix import Prefix
from problem import Problem, fail, reason
from tree import DOCUMENTS, LICENSES, copy, lay_documents, lay_programs, lay_tools

COMMAND = "./ctm"


def main(action: str, folder: str, *programs: str) -> None:
    """Does what is asked, and says what was done."""
    os.umask(0o022)
    heed_interruption()
    prefix = Prefix(Path(folder).absolute())
    try:
        done = uninstalled(prefix) if action == "uninstall" else installed(prefix, *map(Path, programs))
    except Problem as problem:
        fail(COMMAND, problem)
    except OSError as error:
        fail(COMMAND, f"{reason(error)}; nothing was changed")
    except KeyboardInterrupt:
        left = "what is installed there is whole" if prefix.current.exists() else "nothing is installed there"
        fail(COMMAND, f"interrupted; {left}")
    say(done)


def say(done: str) -> None:
    """Says what was done, in the bytes that the folder's name has."""
    try:
        os.write(1, os.fsencode(f"{done}\n"))
    except OSError as error:
        fail(COMMAND, f"standard output: {reason(error)}; {done}")


def installed(prefix: Prefix, program: Path, waiting_program: Path) -> str:
    """Installs the programs with all that belongs to them, where that isn't there already."""
    built = built_here(program, waiting_program)
    with tempfile.TemporaryDirectory(prefix="ctm-tree-") as work:
        tree = Path(work)
        lay_programs(tree, built)
        lay_documents(tree, DOCUMENTS + LICENSES)
        lay_tools(tree, "lib/ctm/python", TOP / "launcher/installed/ctm-tools")
        copy(TOP / "tools/__main__.py", tree / "lib/ctm/python/__main__.py")
        copy(TOP / "tools/find-python", tree / "lib/ctm/find-python", 0o755)
        copy(TOP / "launcher/path", tree / "lib/ctm/path")
        if prefix.has(tree):
            return f"{built.line} is installed under {prefix.folder} already; nothing was changed"
        prefix.refuse_what_is_anothers(tree)
        stays = prefix.install(tree)
    commands = prefix.folder / "bin"
    on_path = str(commands) in os.environ.get("PATH", "").split(":")
    return f"{built.line} is installed under {prefix.folder}; its commands are in {commands}" + \
        ("" if on_path else ", which isn't on the path") + told_of(stays)


def uninstalled(prefix: Prefix) -> str:
    """Takes away what was installed."""
    done, stays = prefix.uninstall()
    if done:
        return f"what ./ctm installed under {prefix.folder} is taken away{told_of(stays)}"
    return f"./ctm has installed nothing under {prefix.folder}; nothing was changed"


def told_of(stays: list[str]) -> str:
    """What couldn't be taken away, in the line of what was done."""
    more = f" and {len(stays) - 1} more" if len(stays) > 1 else ""
    return f"; {stays[0]}, and stays{more}" if stays else ""


main(*sys.argv[1:])
