"""The manual page of ctm-tools, made of what its commands say of themselves by click."""

import sys
from collections.abc import Iterator
from pathlib import Path

import click

sys.path.insert(0, str(Path(__file__).resolve().parents[1] / "tools"))
from ctmtools.command_line import COMMANDS, PROGRAM, tools

HEAD = f'''.\\" Made by tools/documents of what {PROGRAM} --help says.
.TH CTM\\-TOOLS 1 "" "ctm" "User Commands"
.SH NAME
{PROGRAM.replace("-", chr(92) + "-")} \\- studies of road traffic in physical units, over the program ctm
'''


def tools_manual() -> str:
    """The page, in the language of man."""
    context = click.Context(tools, info_name=PROGRAM, **tools.context_settings)
    lines = [".SH SYNOPSIS", f".B {escaped(PROGRAM)}", escaped("COMMAND [OPTIONS] [ARGUMENTS]"), ".SH DESCRIPTION",
             *paragraphs(tools.help), ".SH OPTIONS", *parameters(context, tools)]
    for name in COMMANDS:
        lines += command(context, tools, name)
    lines += [".SH NOTES", *paragraphs(tools.epilog), ".SH FILES", ".TP", ".I /usr/share/doc/ctm",
              "The documents and examples of Debian's package. Those of an installation elsewhere are in share/doc/ctm of its folder.",
              ".SH EXIT STATUS",
              "0 where a command did what it was asked, 2 where a word or a file has a fault, which is printed in one line on",
              "standard error.", ".B lint", "ends with status 1 where the file has a fault, and what is interrupted with 130.",
              ".SH SEE ALSO", ".BR ctm (1),", ".BR ctm\\-wait (1)"]
    return HEAD + "\n".join(lines) + "\n"


def command(parent: click.Context, group: click.Group, name: str) -> Iterator[str]:
    """The section of a command of a group, and of those below it."""
    own = group.get_command(parent, name)
    assert own  # the group lists it
    context = click.Context(own, info_name=name, parent=parent)
    pieces = " ".join(own.collect_usage_pieces(context))
    yield f".SH {escaped(context.command_path).upper()}"
    yield f".B {escaped(context.command_path)}"
    yield escaped(pieces)
    yield ".PP"
    yield from paragraphs(own.help)
    yield from parameters(context, own)
    if isinstance(own, click.Group):
        for below in own.list_commands(context):
            yield from command(context, own, below)
    yield from paragraphs(own.epilog)


def parameters(context: click.Context, own: click.Command) -> Iterator[str]:
    """The options of a command, each with what it says."""
    for parameter in own.get_params(context):
        record = parameter.get_help_record(context)
        if record and isinstance(parameter, click.Option):
            yield ".TP"
            yield f".B {escaped(record[0])}"
            yield escaped(record[1])


def paragraphs(text: str | None) -> Iterator[str]:
    """Paragraphs as click has them: one behind a line of a backspace alone keeps its lines."""
    for paragraph in (text or "").split("\n\n"):
        lines = [line.strip() for line in paragraph.strip("\n").splitlines()]
        kept = bool(lines) and lines[0] == "\b"
        shown = [escaped(line) for line in lines[kept:] if line]
        if shown:
            yield from [".PP", ".nf", *shown, ".fi"] if kept else [".PP", *shown]


def escaped(text: str) -> str:
    """A text in which nothing is a command of man's."""
    made = text.replace("\\", "\\e").replace("-", "\\-")
    return f"\\&{made}" if made.startswith((".", "'")) else made
