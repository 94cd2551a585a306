"""Which tests of the tools reach which lines of them: the tests of each file are run once, and coverage notes the lines of each.

A test reaches what runs in its own process and in those that it starts. What tests of a file share is worked out in the first
of them that asks for it, so the others of the file may reach it too. What a file does when it is imported is reached by the
tests whose file imports it, and by those that reach lines of it or of a file that imports it.
"""
import ast
import functools
import hashlib
import itertools
import json
import os
import resource
import signal
import sys
import time
from collections import defaultdict
from typing import NamedTuple

RUNNING = "CTM_TEST"  # the variable that names the test to the processes that it starts
FIRST = 20  # so many tests are run first
NO_TESTS = 5  # the status of pytest where there are none, as where their names have the folder in them
SLOWED = 10  # so many times longer by the clock a busy machine lets a test take
COVERAGE = """[run]
source = {tools}/ctmtools
data_file = {data}
parallel = true
concurrency = thread, multiprocessing
context = ${{{running}}}
"""
IN_OTHER_PROCESSES = "import coverage\ncoverage.process_startup()\n"


class EachTest:
    """A plugin of pytest that tells coverage which test runs, and notes its processor time and whether it passes."""

    def __init__(self, cover):
        self.cover, self.tests, self.others, self.begun = cover, {}, set(), 0.0

    def pytest_runtest_logstart(self, nodeid, location):
        os.environ[RUNNING] = nodeid
        self.cover.switch_context(nodeid)
        self.begun = processor_seconds()

    def pytest_runtest_logreport(self, report):
        if not report.passed:
            self.others.add(report.nodeid)

    def pytest_runtest_logfinish(self, nodeid, location):
        self.tests[nodeid] = {"seconds": processor_seconds() - self.begun, "passes": nodeid not in self.others}
        self.cover.switch_context("")


class Chosen:
    """A plugin of pytest that runs some tests alone, and ends the process where one takes far more processor time than before.

    That of each process counts for itself, so a busy machine makes none take more; what only waits ends by the clock, far
    later. The tests of a file stay together, so that what they share is made once. A file has the name of the last one begun.
    """

    def __init__(self, seconds, running):
        self.seconds, self.running = seconds, running
        files = list(dict.fromkeys(name.split("::")[0] for name in seconds))
        self.places = {name: (files.index(name.split("::")[0]), place) for place, name in enumerate(seconds)}

    def pytest_collection_modifyitems(self, items):
        items[:] = sorted((item for item in items if item.nodeid in self.places), key=lambda item: self.places[item.nodeid])

    def pytest_runtest_logstart(self, nodeid, location):
        self.running.write_text(nodeid)
        allowed = 20 + 5 * int(self.seconds[nodeid])
        most = resource.getrlimit(resource.RLIMIT_CPU)[1]
        resource.setrlimit(resource.RLIMIT_CPU, (int(time.process_time()) + allowed, most))
        signal.signal(signal.SIGALRM, signal.SIG_DFL)
        signal.alarm(SLOWED * allowed)


def processor_seconds():
    """The processor time of this process so far, and of those that it started and that ended."""
    return sum(os.times()[:4])


def in_folder(tools, output):
    """Has this process go on in a folder of the tools, with nothing to read, and what it says in a file."""
    os.chdir(tools)
    os.dup2(os.open(os.devnull, os.O_RDONLY), 0)
    said = os.open(output, os.O_WRONLY | os.O_CREAT | os.O_TRUNC)
    os.dup2(said, 1)
    os.dup2(said, 2)
    sys.path.insert(0, str(tools))


def pytest_ends(tools, words, plugin):
    """The status of pytest in this process."""
    import pytest

    own = ["-q", "-p", "no:cacheprovider", f"--basetemp={tools.parent / 'pytest'}"]
    return int(pytest.main([*own, *words], plugins=[plugin]))


def fails(tools, seconds):
    """Whether one of some tests fails in a folder of the tools; for a process of its own."""
    in_folder(tools, tools.parent / "said")
    running = running_of(tools)
    names, begin = list(seconds), 0
    while begin < len(names):
        running.unlink(missing_ok=True)
        # Most changes are noticed soon, and to find all tests takes longer than to run the first.
        end = max(FIRST, 5 * begin)
        chosen = {name: seconds[name] for name in names[begin:end]}
        files = dict.fromkeys(name.split("::")[0] for name in chosen)
        if pytest_ends(tools, ["-x", *files], Chosen(chosen, running)) not in (0, NO_TESTS):
            return True
        begin = end
    return False


def running_of(tools):
    """The file with the name of the test that a folder of the tools runs or ran last; it isn't there before the first."""
    return tools.parent / "running"


def measure(tools, test_file, kept):
    """Runs the tests of a file, and keeps what each reaches and its processor time; for a process of its own."""
    from coverage import Coverage

    config, data = tools.parent / "coverage.ini", tools.parent / "coverage" / "data"
    data.parent.mkdir(exist_ok=True)
    config.write_text(COVERAGE.format(tools=tools, data=data, running=RUNNING))
    # Each Python that a test starts looks for this file.
    (tools / "sitecustomize.py").write_text(IN_OTHER_PROCESSES)
    in_folder(tools, tools.parent / "said")
    cover = Coverage(config_file=str(config))
    os.environ.update(PYTHONPATH=str(tools), COVERAGE_PROCESS_START=str(config))
    cover.start()
    plugin = EachTest(cover)
    status = pytest_ends(tools, [f"tests/{test_file}"], plugin)
    cover.stop()
    cover.save()
    whole = Coverage(config_file=str(config))
    whole.combine([str(data.parent)])
    kept.write_text(json.dumps({"tests": plugin.tests, "lines": lines_of(whole.get_data(), list(plugin.tests))}))
    whole.erase()
    return status


def lines_of(data, names):
    """For each line of each file that coverage noted the tests that reach it, by their places among these names."""
    places = {name: place for place, name in enumerate(names)}
    return {path.rpartition("/ctmtools/")[2]: {line: [places[name] for name in found if name in places]
                                               for line, found in data.contexts_by_lineno(path).items()}
            for path in data.measured_files()}


def key_of(tools, test_file, test=""):
    """What changes where a test may reach something else than before: the tools, what tests share, and the file itself.

    Of a single test that is named its file without the others.
    """
    own = tools / "tests" / test_file
    text = _without_others(own.read_text(), test).encode() if test else own.read_bytes()
    return hashlib.sha256(b"\0".join([*_shared(tools), text])).hexdigest()


@functools.cache
def _shared(tools):
    shared = [path for path in tools.glob("tests/*.py") if not path.name.startswith("test_")]
    return [path.read_bytes() for path in sorted([*tools.glob("ctmtools/**/*.py"), *shared])]


def _without_others(text, name):
    """A test file without the tests that have another name."""
    tree = ast.parse(text)
    tree.body = [node for node in tree.body
                 if not (isinstance(node, ast.FunctionDef) and node.name.startswith("test_") and node.name != name)]
    return ast.unparse(tree)


class Test(NamedTuple):
    """A test that passes: its file, its seconds of processor time, and what its file imports."""

    file: str
    seconds: float
    imports: set[str]


class Reach:
    """What the tests of each file reach, as `measure` kept it."""

    def __init__(self, tools, kept):
        self.importers = importers(tools / "ctmtools")
        self.tests, self.lines = {}, defaultdict(lambda: defaultdict(list))
        for test_file, path in kept.items():
            self._add(test_file, json.loads(path.read_text()), imported(tools / "tests" / test_file, tools))

    def _add(self, test_file, told, imports):
        names = list(told["tests"])
        for name, test in told["tests"].items():
            if test["passes"]:
                self.tests[name] = Test(test_file, test["seconds"], imports)
        for file, lines in told["lines"].items():
            for line, places in lines.items():
                self.lines[file][int(line)] += [names[place] for place in places]

    def of(self, mutant, limit):
        """The tests that reach the lines of a change, with their seconds, and behind them the others of their files.

        Of both those come first whose own file imports the changed one, and then the quickest, as many as take so many seconds
        in all. Where none reaches the lines it is those whose file imports the changed one.
        """
        reached = self._reached(mutant)
        files = {self.tests[name].file for name in reached or self._importing(mutant.file)}
        found = sorted((name not in reached, mutant.file not in test.imports, test.seconds, name)
                       for name, test in self.tests.items() if test.file in files)
        within = sum(total <= limit for total in itertools.accumulate(seconds for _, _, seconds, _ in found))
        return {name: seconds for _, _, seconds, name in found[:max(1, within)]}

    def _reached(self, mutant):
        if mutant.function:
            return {name for line in mutant.lines for name in self.lines[mutant.file][line]} & self.tests.keys()
        near = [mutant.file, *self.importers.get(mutant.file, ())]
        found = {name for file in near for names in self.lines[file].values() for name in names} & self.tests.keys()
        return found | self._importing(mutant.file)

    def _importing(self, file):
        return {name for name, test in self.tests.items() if file in test.imports}


def importers(package):
    """For each file of a package those that import it or something of it."""
    found = {}
    for path in sorted(package.glob("**/*.py")):
        for file in imported(path, package.parent):
            found.setdefault(file, set()).add(str(path.relative_to(package)))
    return found


def imported(path, tools):
    """The files of ctmtools that a file imports, or of which it imports something, also by the package's own name."""
    package, found = tools / "ctmtools", set()
    for node in ast.walk(ast.parse(path.read_text())):
        if isinstance(node, ast.ImportFrom):
            base = (path.parents[node.level - 1] if node.level else tools).joinpath(*(node.module or "").split("."))
            names = [name.name for name in node.names]
            files = [one.with_suffix(".py") for one in (base, *(base / name for name in names))]
            found |= {str(file.relative_to(package)) for file in files if file.exists() and package in file.parents}
            if base == package:
                found |= {public(tools)[name] for name in names if name in public(tools)}
    return found


@functools.cache
def public(tools):
    """For each public name of ctmtools the file where it is at home."""
    tree = ast.parse((tools / "ctmtools/__init__.py").read_text())
    return {name.name: f"{node.module.replace('.', '/')}.py" for node in ast.walk(tree)
            if isinstance(node, ast.ImportFrom) and node.level for name in node.names}
