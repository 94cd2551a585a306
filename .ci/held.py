"""What the Python tests hold, by their sources: how many checks each function makes, within which tolerances and over which
values.

A check is an `assert` of what may be false, `pytest.raises`, `warns` and `fail`, a call with `check=True`, and a call of a
function of the tests that makes checks itself; none counts behind the statement that ends a function. A way past the checks is
what may leave one out: a condition or a loop by one, a return before the end, `continue`, `break`, and what catches a fault.
A tolerance is a call of `approx` or of a function that is named for what is close, with its arguments, what `raises` takes,
and in an assert a comparison by order or the places to which `round` rounds. The values are those that stand in a function's decorators, those over which its `for`
statements go, and those that a file names at its top. Each text is that of the source, with single spaces, so that no version
of Python gives it another form.
"""

import ast
from collections import Counter
from typing import NamedTuple

from listing import TOP, checksum

FOLDERS = ("tests", "tools/tests")
CHECKS = {"raises", "warns", "fail"}
WITHIN = {"rel", "abs", "rtol", "atol", "rel_tol", "abs_tol", "decimal", "places", "delta", "match"}
CLOSE = {"approx": 1, "isclose": 2, "allclose": 2, "assert_allclose": 2, "raises": 0, "warns": 0}  # and how many arguments are compared
DISPLAYS = (ast.Constant, ast.Tuple, ast.List, ast.Set, ast.Dict, ast.JoinedStr, ast.Lambda)  # of one truth value, whatever is tested
ENDING = (ast.Return, ast.Raise)
PAST = (ast.If, ast.While, ast.Return, ast.Continue, ast.Break, ast.ExceptHandler)
ORDERED = (ast.Lt, ast.LtE, ast.Gt, ast.GtE)
FUNCTIONS = (ast.FunctionDef, ast.AsyncFunctionDef)
LONGEST = 90  # letters of a text that is shown


class Held(NamedTuple):
    """A function of the tests with what it holds."""

    name: str
    checks: int
    ways_past: int
    values: str  # the checksum of its decorators and loops; empty where it has none
    tolerances: list[str]


class Source:
    """A file of Python."""

    def __init__(self, path):
        content = path.read_bytes()
        self.path = path.relative_to(TOP)
        self.lines = content.splitlines(keepends=True)
        self.body = ast.parse(content).body
        self.is_test = path.name.startswith("test_")

    def text(self, node):
        """The source of a node, with single spaces."""
        lines = self.lines[node.lineno - 1:node.end_lineno]
        lines[-1] = lines[-1][:node.end_col_offset]
        lines[0] = lines[0][node.col_offset:]
        return " ".join(b"".join(lines).decode().split())

    def functions(self):
        """The functions at the top and those of its classes, by their names."""
        for node in self.body:
            if isinstance(node, FUNCTIONS):
                yield node.name, node
            elif isinstance(node, ast.ClassDef):
                yield from ((f"{node.name}.{one.name}", one) for one in node.body if isinstance(one, FUNCTIONS))


def sources():
    """The Python files of the tests, by their folders."""
    return {folder: [Source(path) for path in sorted((TOP / folder).glob("*.py"))] for folder in FOLDERS}


def held_by(folder):
    """What each function of the sources of a folder holds, the files in their order."""
    shared = checking([source for source in folder if not source.is_test], set())
    for source in folder:
        known = checking([source], shared)
        for name, node in source.functions():
            made = Held(name, checks_of(node, known), ways_past(node), values_of(source, node), tolerances_of(source, node))
            if name.startswith("test_") or made.checks or made.values or made.tolerances:
                yield source.path, made


def checking(files, known):
    """The names of functions that make checks, or call one that does."""
    functions = [(name, node) for source in files for name, node in source.functions()]
    found = set(known)
    while more := {name for name, node in functions if name not in found and checks_of(node, found)}:
        found |= more
    return found


def checks_of(function, known):
    return sum(is_check(node, known) for part in (*function.decorator_list, *reached(function)) for node in ast.walk(part))


def reached(function):
    """The statements of a function up to the first that ends it."""
    end = next((at for at, one in enumerate(function.body, 1) if isinstance(one, ENDING)), None)
    return function.body[:end]


def ways_past(function):
    """How many statements of a function may leave a check out. Its last one leaves nothing out."""
    return sum(isinstance(node, PAST) or isinstance(node, ast.Call) and called(node) == "suppress"
               for node in ast.walk(function) if node is not function.body[-1] or not isinstance(node, ast.Return))


def is_fixed(test):
    """Whether a condition has one truth value, whatever is tested."""
    if isinstance(test, ast.BoolOp):
        return (any if isinstance(test.op, ast.Or) else all)(map(is_fixed, test.values))
    if isinstance(test, ast.UnaryOp):
        return is_fixed(test.operand)
    return isinstance(test, DISPLAYS)


def is_check(node, known):
    if isinstance(node, ast.Assert):
        return not is_fixed(node.test)
    return isinstance(node, ast.Call) and (called(node) in CHECKS or called(node) in known or any(
        word.arg == "check" and isinstance(word.value, ast.Constant) and word.value.value is True for word in node.keywords))


def called(call):
    """The name by which a function is called, without what stands before it."""
    return call.func.attr if isinstance(call.func, ast.Attribute) else getattr(call.func, "id", "")


def values_of(source, function):
    """The checksum of the decorators and of what a test's loops go over: of a test all decorators, and of a fixture or another
    function those with arguments.
    """
    is_test = function.name.startswith("test_")
    shown = [source.text(node) for node in function.decorator_list if is_test or isinstance(node, ast.Call)]
    shown += [source.text(node.iter) for node in in_order(function) if is_test and isinstance(node, ast.For)]
    return checksum("\n".join(shown)) if shown else ""


def tolerances_of(source, function):
    """The tolerances of a function as they stand there, one behind the other; equal ones once, with how many they are."""
    found = [told for node in in_order(function) for told in tolerance(source, node)]
    for asserted in filter(lambda node: isinstance(node, ast.Assert), in_order(function)):
        found += [told for node in in_order(asserted) for told in bound(source, node)]
    return [cut(told) if times == 1 else f"{times} x {cut(told)}" for told, times in Counter(found).items()]


def in_order(node):
    return sorted((one for one in ast.walk(node) if hasattr(one, "lineno")), key=lambda one: (one.lineno, one.col_offset))


def tolerance(source, node):
    """That of a call of what says how close two values are."""
    if not isinstance(node, ast.Call):
        return
    words = [source.text(word) for word in node.keywords if word.arg in WITHIN]
    compared = CLOSE.get(called(node))
    if words or compared is not None:
        shown = [] if compared is None else node.args[compared:]
        yield " ".join([called(node), *map(source.text, shown), *words])


def bound(source, node):
    """That of a comparison by order, or of what is rounded."""
    if isinstance(node, ast.Compare) and any(isinstance(sign, ORDERED) for sign in node.ops):
        yield source.text(node)
    elif isinstance(node, ast.Call) and called(node) == "round" and len(node.args) > 1:
        yield f"round to {source.text(node.args[1])}"


def named_values(source):
    """The names that a file gives values at its top, each with the checksum of these, and `-` with that of its other lines."""
    others = []
    for node in source.body:
        if isinstance(node, (ast.Assign, ast.AnnAssign)):
            targets = node.targets if isinstance(node, ast.Assign) else [node.target]
            yield " = ".join(source.text(target) for target in targets), checksum(source.text(node.value) if node.value else "")
        elif not isinstance(node, (*FUNCTIONS, ast.ClassDef, ast.Import, ast.ImportFrom)) and not is_text(node):
            others.append(source.text(node))
    if others:
        yield "-", checksum("\n".join(others))


def is_text(node):
    return isinstance(node, ast.Expr) and isinstance(node.value, ast.Constant)


def cut(text):
    """A text that isn't too long to be read, and is told apart from each other."""
    return text if len(text) <= LONGEST else f"{text[:LONGEST - 20]}.. {checksum(text)}"
