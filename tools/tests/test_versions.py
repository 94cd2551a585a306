"""What newer versions of Python, pandas and numpy no longer take, which the Debian that all is tested on doesn't warn of.

The names are those of numpy 2.0's migration guide, of the lists of deprecations of pandas 2.0 to 2.2, and of Python 3.12 and 3.13.
"""

import ast
import tomllib

import numpy
import pytest

from ctmtools.detectors.file_set import Files
from ctmtools.detectors.options import Wanted

from .detector_formats import counts, pems
from .examples import TOOLS

NUMPY = {"alltrue", "asfarray", "cast", "cfloat", "complex_", "compat", "cumproduct", "disp", "find_common_type", "float_", "in1d", "Inf",
         "Infinity", "infty", "issubclass_", "issubsctype", "longfloat", "mat", "msort", "NaN", "nbytes", "NINF", "NZERO", "obj2sctype",
         "PINF", "product", "PZERO", "round_", "row_stack", "safe_eval", "sctypes", "singlecomplex", "sometrue", "string_", "trapz",
         "unicode_"}
PANDAS = {"applymap", "iteritems", "is_categorical_dtype", "is_datetime64tz_dtype", "is_int64_dtype", "is_interval_dtype",
          "is_period_dtype", "is_sparse", "is_monotonic", "mad", "swapaxes", "to_perioddelta", "tshift"}
PYTHON = {"utcnow", "utcfromtimestamp", "getdefaultlocale", "find_loader", "asyncore", "distutils", "imp", "pkg_resources", "telnetlib"}
WORDS = {"infer_datetime_format", "date_parser", "delim_whitespace", "keep_date_col", "line_terminator", "error_bad_lines", "onerror"}
SPANS = {"H", "T", "S", "L", "U", "N", "M", "Q", "Y", "A", "BM", "BQ", "BA"}  # lengths of time that pandas 2.2 spells otherwise


def trees():
    for path in sorted((TOOLS / "ctmtools").rglob("*.py")):
        yield path.relative_to(TOOLS), ast.parse(path.read_text())


def outdated(node):
    """What of a node newer versions don't take, or None."""
    if isinstance(node, ast.Attribute):
        of_numpy = isinstance(node.value, ast.Name) and node.value.id == "numpy"
        return node.attr if node.attr in (PANDAS | PYTHON) or of_numpy and node.attr in NUMPY else None
    if isinstance(node, (ast.Import, ast.ImportFrom)):
        names = {getattr(node, "module", None), *(name.name for name in node.names)}
        return next(iter(names & (PYTHON | PANDAS)), None)
    if not isinstance(node, ast.Call):
        return None
    called = getattr(node.func, "attr", getattr(node.func, "id", ""))
    said = {word.arg: getattr(word.value, "value", None) for word in node.keywords}
    if called in ("to_numeric", "to_datetime", "to_timedelta") and said.get("errors") == "ignore":
        return f"{called} with errors=\"ignore\""
    if called == "fillna" and "method" in said or called == "groupby" and said.get("axis") == 1:
        return called
    if called == "sub" and len(node.args) > 3 or called == "split" and isinstance(node.func.value, ast.Name) and \
            node.func.value.id == "re" and len(node.args) > 2:
        return f"re.{called} with a count that isn't named"
    spans = [*said.values(), *(getattr(word, "value", None) for word in node.args)] if called in (
        "to_timedelta", "Timedelta", "date_range", "resample", "round", "floor", "ceil", "to_offset") else []
    return next((word for word in (*said, *spans) if word in WORDS or isinstance(word, str) and word in SPANS), None)


def test_the_tools_call_nothing_that_newer_versions_do_not_take():
    found = [f"{path}, line {node.lineno}: {outdated(node)}" for path, tree in trees() for node in ast.walk(tree) if outdated(node)]
    assert not found, "\n".join(found)


@pytest.mark.parametrize("call", ["numpy.NaN", "numpy.trapz(a)", "frame.applymap(f)", "datetime.datetime.utcnow()", "import pkg_resources",
                                  'pandas.to_numeric(a, errors="ignore")', 'a.fillna(method="ffill")', 'pandas.to_timedelta(a, unit="H")',
                                  're.sub("a", "b", text, 1)', "pandas.read_csv(a, delim_whitespace=True)", 'times.dt.round("S")'])
def test_what_is_looked_for_is_found(call):
    assert any(outdated(node) for node in ast.walk(ast.parse(call)))


@pytest.mark.parametrize("name, versions", [("pandas", ["1.5", "2.2"]), ("numpy", ["1.24", "2.0"])])
def test_the_bounds_have_the_versions_that_are_meant(name, versions):
    project = tomllib.loads((TOOLS / "pyproject.toml").read_text())["project"]
    line = next(line for line in project["dependencies"] if line.startswith(f"{name}>="))
    least, past = (as_numbers(part) for part in line.removeprefix(f"{name}>=").split(",<"))
    assert all(least <= as_numbers(version) < past for version in versions) and project["requires-python"] == ">=3.11"


def as_numbers(version):
    return tuple(map(int, version.split(".")))


@pytest.mark.parametrize("text", [pems(), counts()], ids=["lanes", "none"])
def test_lanes_are_numbers_of_one_kind_whether_a_file_says_them_or_not(tmp_path, text):
    """Where a file of another kind lacks them all, pandas 2.1 and newer warn of what joining both will be."""
    (tmp_path / "d.csv").write_text(text)
    (part,) = Files(tmp_path / "d.csv", Wanted()).parts
    assert part.numbers(numpy.ones(len(part.rows), dtype=bool)).lanes.dtype == float
