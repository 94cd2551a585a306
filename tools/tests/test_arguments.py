"""Functions take at most six arguments, but those that click calls with the words of a command."""

import ast

from .examples import TOOLS

MOST = 6
# Those that take more, until they are mended; none is to come to them.
LEFT = {"moments/stretches.py run_in_stretches"}


def takes(function):
    """How many arguments a function takes beside its object; any number of them counts as one."""
    terms = function.args
    names = [one.arg for one in (*terms.posonlyargs, *terms.args, *terms.kwonlyargs)]
    return len([name for name in names if name not in ("self", "cls")]) + sum(one is not None for one in (terms.vararg, terms.kwarg))


def is_command(function):
    """Whether click calls a function: it has a decorator of a command's."""
    return any("command" in ast.unparse(one).partition("(")[0] or "click." in ast.unparse(one) for one in function.decorator_list)


def long_ones(text, name):
    """The functions of a module that take more than is allowed."""
    return {f"{name} {node.name}" for node in ast.walk(ast.parse(text)) if isinstance(node, (ast.FunctionDef, ast.AsyncFunctionDef))
            and takes(node) > MOST and not is_command(node)}


def test_no_function_takes_more_than_six_arguments():
    modules = sorted((TOOLS / "ctmtools").rglob("*.py"))
    found = set().union(*(long_ones(path.read_text(), str(path.relative_to(TOOLS / "ctmtools"))) for path in modules))
    assert not found - LEFT, f"take more than {MOST} arguments: {sorted(found - LEFT)}"


def test_what_is_counted():
    text = """
def six(a, b, /, c, *, d, e=1, f=2): pass
def seven(a, b, c, d, e, f, **more): pass
class Of:
    def six(self, a, b, c, d, e, *f): pass
    def seven(self, a, b, c, d, e, f, g): pass
@click.command()
def command(a, b, c, d, e, f, g): pass
@command.command("sumo")
def sumo(a, b, c, d, e, f, g): pass
"""
    assert long_ones(text, "m.py") == {"m.py seven"}


def test_records_of_many_parts_are_made_by_name():
    from ctmtools.units import Units

    assert Units.__init__.__kwdefaults__ and not Units.__init__.__defaults__
