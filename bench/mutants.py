"""The changes of a Python file that bench/mutate-tools tries: of numbers, comparisons, signs and conditions, one at a time."""
import ast
import copy
from typing import Any, NamedTuple

OTHER_COMPARISONS = {ast.Lt: (ast.LtE, ast.GtE), ast.LtE: (ast.Lt, ast.Gt), ast.Gt: (ast.GtE, ast.LtE),
                     ast.GtE: (ast.Gt, ast.Lt), ast.Eq: (ast.NotEq,), ast.NotEq: (ast.Eq,), ast.Is: (ast.IsNot,),
                     ast.IsNot: (ast.Is,), ast.In: (ast.NotIn,), ast.NotIn: (ast.In,)}
OTHER_SIGNS = {ast.Add: ast.Sub, ast.Sub: ast.Add, ast.Mult: ast.Div, ast.Div: ast.Mult, ast.FloorDiv: ast.Div}
OTHER_MASKS = {ast.BitAnd: ast.BitOr, ast.BitOr: ast.BitAnd}
FUNCTIONS = (ast.FunctionDef, ast.AsyncFunctionDef)
# What is never changed: annotations, what holds by the code itself, and what the checker of annotations alone reads.
LEFT_OUT = {"annotation", "returns"}
CONTEXT = 90  # letters of the expression in which a change is shown
ON_LOOKS = "plots/"  # in these files the numbers of constants and keyword arguments say how a picture looks, and stay


class Place(NamedTuple):
    """A node of a file that can be changed: who holds it under which field, and what may stand there instead."""

    file: str
    function: str  # the function around it, as Python names it; empty where it is done when the file is imported
    above: tuple[Any, ...]  # the nodes around it, from the whole file on
    field: str
    index: int | None
    node: ast.AST
    others: tuple[ast.AST, ...]


class Mutant(NamedTuple):
    """A changed file: where, what stood there and stands there now, and the whole text."""

    file: str
    function: str
    line: int
    lines: range  # of the statement around it
    old: str
    new: str
    text: str

    @property
    def key(self):
        """What names it in the list of those that mean the same; it stays where lines are added above."""
        return f"{self.file} {self.function or '-'}: {self.old} -> {self.new}"


def places(file, text):
    """The places of a file, from its top on."""
    return list(_within(file, ast.parse(text), (), ""))


def mutant(place, other):
    """The file with another node in a place."""
    tree = place.above[0]
    around = _context(place)
    old = _shown(around)
    _put(place, other)
    new, text = _shown(around if around is not place.node else other), ast.unparse(tree)
    _put(place, place.node)
    return Mutant(place.file, place.function, place.node.lineno, _lines(place), old, new, text)


def _within(file, node, above, function):
    for field, index, child in _children(node):
        if field in LEFT_OUT or _is_left_out(child) or _is_look(file, node, child, function):
            continue
        here = _named(above, node) if field == "body" and isinstance(node, FUNCTIONS) else function
        others = tuple(_others(child, node, field))
        if others:
            yield Place(file, here, (*above, node), field, index, child, others)
        yield from _within(file, child, (*above, node), here)


def _named(above, function):
    """The name of a function as Python itself has it, with those of the classes and functions around it."""
    holders = [node for node in above if isinstance(node, (*FUNCTIONS, ast.ClassDef))]
    return "".join(f"{node.name}.<locals>." if isinstance(node, FUNCTIONS) else f"{node.name}." for node in holders) + function.name


def _children(node):
    """The nodes right below a node, each with the field that holds it and its place there."""
    for field, value in ast.iter_fields(node):
        if isinstance(value, ast.AST):
            yield field, None, value
        elif isinstance(value, list):
            yield from ((field, i, one) for i, one in enumerate(value) if isinstance(one, ast.AST))


def _is_left_out(node):
    if isinstance(node, ast.If) and "TYPE_CHECKING" in ast.unparse(node.test):
        return True
    return isinstance(node, (ast.Assert, ast.Import, ast.ImportFrom)) or \
        isinstance(node, ast.Assign) and isinstance(node.value, (ast.Subscript, ast.Call)) and \
        ast.unparse(node.value).startswith(("TypeVar(", "Callable[", "dict[", "list[", "tuple[", "Mapping[", "ParamSpec("))


def _is_look(file, above, node, function):
    return file.startswith(ON_LOOKS) and (isinstance(node, ast.keyword) or not function and isinstance(node, ast.Assign) or
                                          isinstance(above, ast.arguments))


def _others(node, above, field):
    """What may stand in place of a node."""
    match node:
        case ast.Constant(value=bool()):
            pass
        case ast.Constant(value=int() as number):
            yield from (ast.Constant(number + 1), ast.Constant(number - 1))
        case ast.Constant(value=float() as number):
            yield from (ast.Constant(round(number * 1.1, 12)), ast.Constant(round(number * 0.9, 12))) if number else \
                (ast.Constant(0.1),)
        case ast.Constant(value=str() as number) if _is_fraction(above) and _is_number(number):
            yield from (ast.Constant(str(round(float(number) * part, 12))) for part in (1.1, 0.9))
        case ast.Compare():
            yield from _other_comparisons(node)
        case ast.BinOp(op=op) if type(op) in OTHER_SIGNS and not _has_text(node):
            yield _with(node, op=OTHER_SIGNS[type(op)]())
        case ast.BinOp(op=op) if type(op) in OTHER_MASKS:
            yield _with(node, op=OTHER_MASKS[type(op)]())
        case ast.AugAssign(op=op) if type(op) in OTHER_SIGNS and not _has_text(node):
            yield _with(node, op=OTHER_SIGNS[type(op)]())
        case ast.UnaryOp(op=ast.USub() | ast.Not() | ast.Invert()):
            yield node.operand
        case ast.BoolOp(op=op, values=values):
            yield _with(node, op=ast.Or() if isinstance(op, ast.And) else ast.And())
            for i in range(len(values)):
                rest = values[:i] + values[i + 1:]
                yield _with(node, values=rest) if len(rest) > 1 else rest[0]
    if field in ("test", "ifs"):
        yield ast.UnaryOp(ast.Not(), node)
    if field == "ifs":
        yield ast.Constant(True)


def _other_comparisons(node):
    for i, op in enumerate(node.ops):
        for other in OTHER_COMPARISONS[type(op)]:
            yield _with(node, ops=[*node.ops[:i], other(), *node.ops[i + 1:]])


def _with(node, **fields):
    """The node with other fields; what is below them is shared."""
    changed = copy.copy(node)
    for name, value in fields.items():
        setattr(changed, name, value)
    return changed


def _is_fraction(node):
    return isinstance(node, ast.Call) and isinstance(node.func, ast.Name) and node.func.id == "Fraction"


def _is_number(text):
    try:
        return float(text) != 0
    except ValueError:
        return False


def _has_text(node):
    """Whether a sum is of texts, in which no sign can be changed."""
    sides = (node.value,) if isinstance(node, ast.AugAssign) else (node.left, node.right)
    return any(isinstance(one, ast.JoinedStr) or isinstance(one, ast.Constant) and isinstance(one.value, str) or
               isinstance(one, ast.BinOp) and _has_text(one) for side in sides for one in (side,))


def _put(place, node):
    """Puts a node where another stood."""
    holder = place.above[-1]
    if place.index is None:
        setattr(holder, place.field, node)
    else:
        getattr(holder, place.field)[place.index] = node


def _lines(place):
    """The lines of the statement around a place; of one with a body those before it."""
    around = [node for node in (*place.above, place.node) if isinstance(node, ast.stmt)][-1]
    body = getattr(around, "body", None)
    return range(around.lineno, max(around.lineno, body[0].lineno - 1 if body else around.end_lineno) + 1)


def _context(place):
    """The widest expression or statement around a place that can be shown in a line."""
    found = place.node
    if isinstance(found, ast.stmt):
        return found
    for node in reversed(place.above):
        if not isinstance(node, (ast.expr, ast.stmt, ast.comprehension, ast.keyword)) or len(_shown(node)) > CONTEXT:
            break
        found = node
        if isinstance(node, ast.stmt):
            break
    return found


def _shown(node):
    """A node in one line; of a statement with a body its head."""
    if isinstance(node, (ast.If, ast.While)):
        return f"{type(node).__name__.lower()} {ast.unparse(node.test)}"
    if isinstance(node, ast.For):
        return f"for {ast.unparse(node.target)} in {ast.unparse(node.iter)}"
    return " ".join(ast.unparse(node).split())
