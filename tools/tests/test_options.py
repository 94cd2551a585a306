"""The defaults and ranges of the options, as each command's help has them: none of them changes unseen."""

import inspect
import re

import click
import pytest

import ctmtools
from ctmtools.command_line import COMMANDS, tools

# For each option with a number its default, and the least and the most that is taken.
NUMBERS = {
    "assign --iterations": (50, 1, 10_000), "assign --jobs": (None, 1, 256), "assign --workers": (None, 1, 16),
    "branch --jobs": (None, 1, 256), "branch --value-of-time": (None, 0, None), "calibrate --first": (16, 1, 10_000),
    "calibrate --jobs": (1, 1, 256), "calibrate --runs": (80, 2, 10_000), "calibrate --starts": (3, 1, 100), "choose --rows": (20, 1, None), "compare --rows": (10, 0, None),
    "compare --value-of-time": (None, 0, None), "diagram --lanes": (None, 0.1, None), "diagram --vehicle-length": (None, 0.1, 100), "detectors --lanes": (None, 0.1, None), "meter --gain": (None, 0, None), "meter --value-of-time": (None, 0, None),
    "open --port": (0, 0, 65_535), "draw --runs": (100, 1, 1_000_000), "draw --seed": (1, 0, None),
    "optimise --generations": (30, 1, 100_000), "optimise --population": (48, 5, 10_000), "optimise --seed": (1, 0, 2**32 - 1),
    "plot n-curves --background": (None, 0, None), "run --every": (None, 0, 100_000), "run --workers": (None, 1, 16), "sweep --every": (None, 1, 100_000), "sweep --jobs": (None, 1, 256),
    "sweep --rows": (20, 1, None), "table --value-of-time": (None, 0, None)}


def ranges():
    """The options of the commands that take a number within a range; those of imports are their own."""
    context = click.Context(tools)
    for name in COMMANDS:
        for path, command in with_commands(name, tools.get_command(context, name)):
            for option in command.params:
                if isinstance(option.type, (click.IntRange, click.FloatRange)):
                    yield f"{path} {max(option.opts, key=len)}", (option.default, option.type.min, option.type.max)


def test_the_numbers_that_options_take():
    found = dict(ranges())
    assert {name: found.get(name) for name in NUMBERS} == NUMBERS


def defaults(function):
    """The numbers that a function takes where its caller names none: of its parameters, and of the options that it asks for."""
    asked = re.findall(r'options\.get\("(\w+)", ([\d.]+)\)', inspect.getsource(function))
    terms = inspect.signature(function).parameters
    return {**{term: one.default for term, one in terms.items() if type(one.default) in (int, float)},
            **{option: float(number) for option, number in asked}}


# The numbers that a function has a default for.
NUMBERED = {"assign": {"gap", "iterations"}, "calibrate": {"first", "jobs", "runs", "starts"}, "draw": {"runs", "seed"},
            "optimise": {"generations", "least_green", "population", "seed"}}


@pytest.mark.parametrize("name", NUMBERED)
def test_a_function_has_the_defaults_of_its_command(name):
    options = {option.name: option.default for option in tools.get_command(click.Context(tools), name).params}
    numbers = defaults(getattr(ctmtools, name))
    assert numbers.keys() == NUMBERED[name] and numbers == {term: float(options[term]) for term in numbers}


@pytest.mark.parametrize("words, told", [(["run", "x.csv", "--workers", "17"], "17 is not in the range 1<=x<=16"),
                                         (["sweep", "x.toml", "--vary", "demand=1", "--rows", "0"], "0 is not in the range x>=1")])
def test_what_is_beyond_a_range_is_refused(tool, words, told):
    status, out, err = tool(*words)
    assert status == 2 and told in err and err.count("\n") == 1


def test_no_number_of_an_option_may_be_infinite_or_none():
    context, found = click.Context(tools), 0
    for name in COMMANDS:
        for _, command in with_commands(name, tools.get_command(context, name)):
            for option in command.params:
                if isinstance(option.type, click.FloatRange) or option.type is click.FLOAT:
                    found += 1
                    for text in ("inf", "-inf", "nan"):
                        with pytest.raises(click.BadParameter):
                            option.type.convert(text, option, context)
    assert found >= 15


def with_commands(path, command):
    """A command and those within it, each with its words."""
    yield path, command
    for name, within in getattr(command, "commands", {}).items():
        yield from with_commands(f"{path} {name}", within)


@pytest.mark.parametrize("text", ["nan", "inf"])
@pytest.mark.parametrize("kind, option", [("sumo", "--step"), ("sumo", "--until"), ("gmns", "--until")])
def test_a_time_of_an_import_is_finite(tool, kind, option, text):
    status, _, err = tool("import", kind, "none", option, text)
    assert status == 2 and f"{option}: expected a length of time, found {text}" in err


@pytest.mark.parametrize("words", [["meter", "x.toml", "--gain", "inf"], ["compare", "a", "b", "--value-of-time", "nan"]])
def test_what_is_no_finite_number_is_refused(tool, words):
    status, out, err = tool(*words)
    assert (status, out) == (2, "") and f"{words[-1]!r} is not a finite number" in err and err.count("\n") == 1
