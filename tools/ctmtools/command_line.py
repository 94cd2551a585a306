"""The words of ./ctm-tools: one command for each file of `commands`, help everywhere, errors in one line."""

from __future__ import annotations

import importlib
import os
import sys
import threading
from collections.abc import Sequence
from contextlib import suppress
from typing import Any, NoReturn

import click

from . import __version__
from .commands.telling import PROGRAM, answer, need_streams, note, say, tell
from .files.unpacking import DEFAULT, MOST, OPTION
from .problem import Interrupted
from .program.calls import NEWS, documents, found_program, keep_folders_from_root
from .program.interrupt import INTERRUPTS, STATUS, heeded

COMMANDS = {"new": "Write a study to begin with.", "examples": "Copy the examples into a folder.",
            "build": "Make the network file of a study.", "run": "Run a study or a network, and print its page.",
            "open": "Change a study in a browser and see its results at once.",
            "lint": "Explain the first fault of a network file, or warn.",
            "table": "Write a report as a tidy table, CSV.",
            "travel-time": "Print the travel times along a road or a route.", "plot": "Draw a report.",
            "import": "Make a study of another program's network.",
            "report": "Make a page for a browser of a report, or of several.",
            "export": "Write a report in the format of another program.", "compare": "Compare two reports.",
            "assign": "Let the trips of a study choose their routes.",
            "sweep": "Run a study over varied values.",
            "draw": "Run a study over draws of what is uncertain of it.",
            "choose": "Choose among plans of varied values by one call of the program for 16.",
            "optimise": "Search for the timing of signals with the least delay.",
            "branch": "Run several futures of a saved moment.",
            "meter": "Run ramp meters with feedback.",
            "detectors": "Print what files of detectors hold, and leave out what is broken.",
            "calibrate": "Find values by which a study is nearest to detectors.",
            "diagram": "Fit flow and density to a detector's data."}
# The modules of commands whose names aren't theirs.
MODULES = {"export": "exporting", "import": "importing", "travel-time": "travel_time"}
EPILOG = """\b
Examples:
  ctm-tools run examples/bottleneck.toml
  ctm-tools plot time-space bottleneck.report -o bottleneck.png
  ctm-tools lint examples/interchange.csv

A study is in TOML and in physical units, a network in docs/FORMAT.md's records. The tools stand apart from the
proofs: the traffic is ctm's, and what they say around it is checked by tests alone. tools/README.md has more."""


class Commands(click.Group):
    """The group of the commands, each loaded when it is called."""

    def list_commands(self, context: click.Context) -> list[str]:
        """The names of the commands, in the order of a study."""
        return list(COMMANDS)

    def get_command(self, context: click.Context, name: str) -> click.Command | None:
        """The command of a name, or None."""
        if name not in COMMANDS:
            return None
        command: click.Command = importlib.import_module(f".commands.{MODULES.get(name, name)}", __package__).command
        return command

    def invoke(self, context: click.Context) -> Any:
        """Runs a command; an interrupt is left to the caller, since click would write a line of its own."""
        try:
            return super().invoke(context)
        except KeyboardInterrupt:
            raise Interrupted("interrupted") from None

    def format_commands(self, context: click.Context, formatter: click.HelpFormatter) -> None:
        """The commands with a line for each, without loading them."""
        with formatter.section("Commands"):
            formatter.write_dl(list(COMMANDS.items()))

    def format_epilog(self, context: click.Context, formatter: click.HelpFormatter) -> None:
        """What stands behind the commands, and where a package has what is spoken of there."""
        super().format_epilog(context, formatter)
        folder = documents()
        if folder:
            formatter.write_paragraph()
            formatter.write(f"  Documents and examples are in {folder}\n")  # where a path isn't broken


def show_version(context: click.Context, _: click.Parameter, asked: bool) -> None:
    """Prints the version of the tools, and which program they call."""
    if asked and not context.resilient_parsing:
        program = found_program()
        tell(f"{PROGRAM} {__version__}, over {program.path}, {program.by}")
        context.exit()


@click.group(cls=Commands, epilog=EPILOG, context_settings={"help_option_names": ["-h", "--help"],
                                                            "max_content_width": 110})
@click.option("--version", is_flag=True, expose_value=False, is_eager=True, callback=show_version,
              help="Show the version, and which program is called.")
@click.option(OPTION, "most_unpacked", type=click.IntRange(1), default=DEFAULT, show_default=True, metavar="MIB",
              help="The most that a packed file may unpack to.")
def tools(most_unpacked: int) -> None:
    """Studies of road traffic in an engineer's own units, over the proved program ctm."""
    MOST.set(most_unpacked)


def main(words: Sequence[str] | None = None) -> NoReturn:
    """Runs a command on the words, and ends with status 2 and one line where they or a file have a fault."""
    need_streams()
    keep_folders_from_root()
    NEWS.set(note)
    last_word = LastWord()
    with heeded(last_word):
        try:
            status = tools.main(words, prog_name=PROGRAM, standalone_mode=False)
            sys.stdout.flush()
        except KeyboardInterrupt:
            stop(last_word)
        except Exception as error:
            if isinstance(error, Interrupted):
                stop(last_word, str(error))
            if INTERRUPTS.came:
                stop(last_word)
            answer(error)
    sys.exit(status if isinstance(status, int) else 0)


class LastWord:
    """The line of a command that was interrupted, which is printed once."""

    def __init__(self) -> None:
        self.told = False
        self.telling = threading.Lock()  # the thread that ends the process asks for it too

    def __call__(self, line: str = "interrupted") -> None:
        """Prints the line, in the place of what a terminal shows in its last one."""
        with self.telling:
            if not self.told:
                self.told = True
                say(line, "\r\x1b[K\x1b[?25h" if sys.stderr.isatty() else "")  # a bar hides the cursor


def stop(last_word: LastWord, line: str = "interrupted") -> NoReturn:
    """Ends with the line and the status of an interrupt, and with it all that was begun."""
    INTERRUPTS.end_groups()
    last_word(line)
    if INTERRUPTS.came:  # what Python would do at its end takes too long
        with suppress(OSError, ValueError):
            sys.stdout.flush()
        os._exit(STATUS)
    sys.exit(STATUS)

