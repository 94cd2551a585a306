"""The page of the functions of `import ctmtools`: what each takes and gives, by its annotations, and what it says of itself.

It is made of the sources of tools/ctmtools, none of which is run.
"""

import ast
from collections.abc import Iterator
from functools import cache
from pathlib import Path

from gathering import TOP

PACKAGE = TOP / "tools/ctmtools"
PAGE = Path("tools/docs/functions.md")
HEAD = """# Functions of Python

What `import ctmtools` gives, with its types. Frames have their units in `frame.attrs["units"]`. [From Python](python.md) has examples.
"""
MOST_LINE = 100


def write_functions(folder: Path) -> None:
    """Lays the page into a folder."""
    path = folder / PAGE
    path.parent.mkdir(parents=True, exist_ok=True)
    path.write_text("\n".join([HEAD, *functions()]))


def public_names() -> dict[str, str]:
    """The public names, each with the module where it is at home."""
    (homes,) = (node.value for node in _tree(PACKAGE / "__init__.py").body if isinstance(node, ast.Assign) and _named(node, "NAMES"))
    return {name: home for home, names in ast.literal_eval(homes).items() for name in names}


def functions() -> Iterator[str]:
    """The lines of the page: the public names, and then the classes that they take and give, and what short names stand for."""
    waiting = {name: PACKAGE / f"{home.replace('.', '/')}.py" for name, home in sorted(public_names().items(), key=lambda one: one[0].lower())}
    known = dict(waiting)
    while waiting:
        name = next(iter(waiting))
        path = waiting.pop(name)
        node = _node(path, name)
        yield from [f"## {name}", "", *_told(node, path), ""]
        further = {found: home for home, found in _annotated(node, path) if found not in known}
        known |= further
        waiting |= further


def _told(node: ast.stmt, path: Path) -> Iterator[str]:
    """What a function, a class or a short name says of itself."""
    if isinstance(node, ast.FunctionDef):
        yield from [*_block([_signature(node)]), "", *_text(node)]
    elif isinstance(node, ast.ClassDef):
        yield from _text(node)
        classes = [node, *_bases(node, path)]
        fields = [field for one in classes for field in _fields(one)]
        yield from ["", *_block(fields)] if fields else []
        for method in {method.name: method for one in reversed(classes) for method in _methods(one)}.values():
            yield from ["", f"### {node.name}.{method.name}", "", *_block([_signature(method)]), "", *_text(method)]
    else:
        yield from _block(ast.get_source_segment(path.read_text(), node).splitlines())


def _block(lines: list[str]) -> list[str]:
    return ["```", *lines, "```"]


def _text(node: ast.FunctionDef | ast.ClassDef) -> list[str]:
    return (ast.get_docstring(node) or "").splitlines()


def _signature(node: ast.FunctionDef) -> str:
    """The head of a function; a long one has a line for each argument."""
    given = "" if node.returns is None else f" -> {ast.unparse(node.returns)}"
    own = [argument for argument in _arguments(node) if argument not in ("self", "cls")]
    if any(isinstance(one, ast.Name) and one.id.endswith("property") for one in node.decorator_list):
        return f"{node.name}{given}"
    line = f"{node.name}({', '.join(own)}){given}"
    return line if len(line) <= MOST_LINE else f"{node.name}(\n" + "".join(f"    {argument},\n" for argument in own) + f"){given}"


def _arguments(node: ast.FunctionDef) -> Iterator[str]:
    """The arguments of a function, as they are written, one by one."""
    terms = node.args
    yield from _with_defaults(terms.args, [*[None] * (len(terms.args) - len(terms.defaults)), *terms.defaults])
    if terms.vararg or terms.kwonlyargs:
        yield f"*{ast.unparse(terms.vararg) if terms.vararg else ''}"
    yield from _with_defaults(terms.kwonlyargs, terms.kw_defaults)
    if terms.kwarg:
        yield f"**{ast.unparse(terms.kwarg)}"


def _with_defaults(arguments: list[ast.arg], defaults: list[ast.expr | None]) -> Iterator[str]:
    for argument, default in zip(arguments, defaults):
        yield ast.unparse(argument) + ("" if default is None else f" = {ast.unparse(default)}")


def _fields(node: ast.ClassDef) -> list[str]:
    """The fields of a class with their types."""
    return [ast.unparse(one) for one in node.body if isinstance(one, ast.AnnAssign)]


def _bases(node: ast.ClassDef, path: Path) -> Iterator[ast.ClassDef]:
    """The classes of the package that a class goes on from."""
    for base in node.bases:
        home = _home(path, base.id) if isinstance(base, ast.Name) else None
        if home:
            found = _node(*home)
            yield from [found, *_bases(found, home[0])]


def _methods(node: ast.ClassDef) -> list[ast.FunctionDef]:
    """The methods and properties that a class says something of."""
    return [one for one in node.body if isinstance(one, ast.FunctionDef) and not one.name.startswith("_") and ast.get_docstring(one)]


def _annotated(node: ast.stmt, path: Path) -> Iterator[tuple[Path, str]]:
    """The names of the package that the annotations of a public function or a short name use, where they are at home."""
    if isinstance(node, ast.ClassDef):
        return
    noted = [node.value] if isinstance(node, (ast.Assign, ast.AnnAssign)) else \
        [*(one.annotation for one in ast.walk(node.args) if isinstance(one, ast.arg)), node.returns]
    for name in dict.fromkeys(one.id for note in noted if note for one in ast.walk(note) if isinstance(one, ast.Name)):
        home = _home(path, name)
        if home:
            yield home


def _home(path: Path, name: str) -> tuple[Path, str] | None:
    """Where a name that a module uses is at home, if that is in the package."""
    if _node(path, name, None):
        return path, name
    for node in ast.walk(_tree(path)):
        for one in node.names if isinstance(node, ast.ImportFrom) and node.level else []:
            if name == (one.asname or one.name):
                module = path.parents[node.level - 1] / f"{(node.module or '').replace('.', '/')}.py"
                return _home(module, one.name) if module.is_file() else None
    return None


def _node(path: Path, name: str, *otherwise: None) -> ast.stmt | None:
    """Where a module makes a name."""
    return next((node for node in _tree(path).body if getattr(node, "name", None) == name or _named(node, name)), *otherwise)


def _named(node: ast.stmt, name: str) -> bool:
    targets = node.targets if isinstance(node, ast.Assign) else [node.target] if isinstance(node, ast.AnnAssign) else []
    return any(isinstance(target, ast.Name) and target.id == name for target in targets)


@cache
def _tree(path: Path) -> ast.Module:
    return ast.parse(path.read_text())
