"""What may import what: each package says it in the first line of its `__init__`, and there is no circle."""

import ast
import re
from collections.abc import Iterator
from pathlib import Path

import networkx
import pytest

import ctmtools

ROOT = Path(ctmtools.__file__).parent
BASE = {"arrays", "problem", "visible"}  # which all may import
PACKAGES = sorted(path.name for path in ROOT.iterdir() if path.is_dir() and path.name != "__pycache__")
FILES = {path: ast.parse(path.read_text()) for path in sorted(ROOT.rglob("*.py"))}
MOST_ARGUMENTS, MOST_FILES = 6, 10
MOST_MODULES, LEAST_LINES = 260, 25


def unit_of(path: Path) -> str:
    return path.relative_to(ROOT).with_suffix("").parts[0]


def imported(path: Path) -> Iterator[str]:
    """The packages and files beside them from which a file imports, wherever in it and whatever for."""
    parts = path.relative_to(ROOT).with_suffix("").parts
    for node in ast.walk(FILES[path]):
        if isinstance(node, ast.ImportFrom) and node.level:
            home = parts[:len(parts) - node.level]
            names = [node.module] if node.module else [alias.name for alias in node.names]
            yield from (name for name in ([*home, *name.split(".")][0] for name in names if name) if not name.startswith("__"))
        elif isinstance(node, (ast.ImportFrom, ast.Import)):
            names = [node.module or ""] if isinstance(node, ast.ImportFrom) else [alias.name for alias in node.names]
            assert not any(name.split(".")[0] == "ctmtools" for name in names), f"{path} imports its own package by its name"


def found(unit: str) -> set[str]:
    return {name for path in FILES if unit_of(path) == unit for name in imported(path)} - {unit} - BASE


def said(package: str) -> set[str]:
    """What the first line of a package's `__init__` says that it imports."""
    line = (ROOT / package / "__init__.py").read_text().split("\n")[0]
    names = re.fullmatch(r"# Imports (.+)", line)
    assert names, f"{package}/__init__.py: its first line says what it imports, `# Imports A, B`"
    everything = {*PACKAGES, *(path.stem for path in ROOT.glob("*.py") if not path.stem.startswith("__"))}
    if names[1].startswith("all"):
        return everything - set(filter(None, [names[1].removeprefix("all").removeprefix(" but ")]))
    return set() if names[1] == "nothing" else set(names[1].split(", "))


@pytest.mark.parametrize("package", PACKAGES)
def test_a_package_imports_what_its_first_line_says(package):
    strange = found(package) - said(package)
    assert not strange, f"{package} imports {', '.join(sorted(strange))} too"
    if "commands" not in said(package) and package != "library":
        assert not said(package) - found(package), "its first line says what isn't so"


def test_there_is_no_circle():
    graph = networkx.DiGraph((unit, name) for unit in {*map(unit_of, FILES)} for name in found(unit))
    assert not list(networkx.simple_cycles(graph))


def module_of(path: Path) -> tuple[str, ...]:
    return path.relative_to(ROOT).with_suffix("").parts


def modules_of(path: Path) -> Iterator[tuple[str, ...]]:
    """The modules that a file imports when it is loaded or called, but for those that only its annotations name."""
    annotations = {inner for node in ast.walk(FILES[path]) if isinstance(node, ast.If) and ast.unparse(node.test) == "TYPE_CHECKING"
                   for inner in ast.walk(node)}
    for node in ast.walk(FILES[path]):
        if isinstance(node, ast.ImportFrom) and node.level and node not in annotations:
            home = module_of(path)[:-node.level]
            named = (*home, *node.module.split(".")) if node.module else home
            yield from (named, *((*named, alias.name) for alias in node.names))


def test_no_modules_import_each_other_in_a_circle():
    known = {*map(module_of, FILES)}
    graph = networkx.DiGraph((module_of(path), name) for path in FILES for name in modules_of(path) if name in known)
    assert len(graph) > 200 and networkx.is_directed_acyclic_graph(graph)


def test_a_module_is_worth_a_file():
    few = [path for path in FILES if len(path.read_text().splitlines()) < LEAST_LINES]
    assert len(FILES) < MOST_MODULES and {path.name for path in few} == {"__init__.py", "__main__.py"}


def test_the_files_beside_the_packages_are_few():
    beside = [path.name for path in ROOT.glob("*.py")]
    assert len(beside) <= MOST_FILES and not [name for name in BASE if set(imported(ROOT / f"{name}.py")) - BASE]


def test_nobody_imports_commands_but_what_calls_them():
    assert {unit_of(path) for path in FILES if "commands" in imported(path)} <= {"command_line", "__main__", "commands"}


def test_the_words_of_a_command_are_read_and_lines_printed_in_commands_alone():
    for path, tree in FILES.items():
        modules = {name.split(".")[0] for node in ast.walk(tree) for name in (
            [alias.name for alias in node.names] if isinstance(node, ast.Import) else
            [node.module or ""] if isinstance(node, ast.ImportFrom) and not node.level else [])}
        called = {node.func.id for node in ast.walk(tree) if isinstance(node, ast.Call) and isinstance(node.func, ast.Name)}
        if unit_of(path) not in ("commands", "command_line", "__main__"):
            assert "click" not in modules and "print" not in called, path
        assert not {"redirect_stdout", "redirect_stderr"} & {name.id for name in ast.walk(tree) if isinstance(name, ast.Name)}, path


def is_of_click(function: ast.FunctionDef) -> bool:
    return any("click" in ast.unparse(one) or ast.unparse(one).startswith("command.command") for one in function.decorator_list)


@pytest.mark.parametrize("unit", sorted({*map(unit_of, FILES)}))
def test_a_function_takes_six_arguments_at_most(unit):
    for path, tree in ((path, tree) for path, tree in FILES.items() if unit_of(path) == unit):
        for function in (node for node in ast.walk(tree) if isinstance(node, ast.FunctionDef)):
            terms = function.args
            names = [term.arg for term in [*terms.posonlyargs, *terms.args, *terms.kwonlyargs]]
            count = len(names) - (names[:1] in (["self"], ["cls"])) + bool(terms.vararg) + bool(terms.kwarg)
            assert count <= MOST_ARGUMENTS or is_of_click(function), f"{path}: {function.name} takes {count}"


def test_no_public_function_takes_whatever_it_is_given():
    for home in {home for home in ctmtools.HOMES.values()}:
        tree = FILES[ROOT / f"{home.replace('.', '/')}.py"]
        for function in (node for node in ast.walk(tree) if isinstance(node, ast.FunctionDef) and not node.name.startswith("_")):
            for term in [*function.args.args, *function.args.kwonlyargs, *filter(None, [function.args.kwarg, function.args.vararg])]:
                assert term.arg in ("self", "cls") or term.annotation, f"{home}.{function.name}: {term.arg} has no type"
            if function.args.kwarg:
                assert ast.unparse(function.args.kwarg.annotation).startswith("Unpack["), f"{home}.{function.name}"
