"""tests/fuzz [--seconds S] [--seed N] [--jobs J] [--kind KIND] [--case N] [--keep FOLDER] changes right input by draws of a seed,
and gives it to the program and to the tools within limits of time and memory. A finding is a traceback, a signal, no end within
30 s of processor time, or more than 1.5 GB. Each is told with the call that makes it again; --keep keeps its files. The last line says of how many
kinds of input all cases passed. The program is that of CTM_PROGRAM, or the one that is built here.
"""

import argparse
import importlib
import os
import pkgutil
import random
import shlex
import shutil
import sys
import tempfile
import time
from concurrent.futures import ProcessPoolExecutor
from itertools import count
from multiprocessing import get_context
from pathlib import Path

TOP = Path(__file__).resolve().parents[2]
sys.path[:0] = [str(TOP / "tests"), str(TOP / "tools")]

import inputs
from limited import called


def words_of_call():
    parser = argparse.ArgumentParser(prog="tests/fuzz", description=__doc__, formatter_class=argparse.RawDescriptionHelpFormatter)
    parser.add_argument("--seconds", type=float, default=60, help="how long all takes; by default 60")
    parser.add_argument("--seed", type=int, default=1)
    parser.add_argument("--jobs", type=int, default=min(2, len(os.sched_getaffinity(0))), help="how many kinds are tried at once")
    parser.add_argument("--kind", choices=inputs.KINDS, action="append", help="these alone; by default each")
    parser.add_argument("--case", type=int, help="this case of a kind alone")
    parser.add_argument("--keep", type=Path, help="where the files of findings are kept")
    return parser.parse_args()


def main():
    given = words_of_call()
    kinds = given.kind or list(inputs.KINDS)
    os.environ.update(OPENBLAS_NUM_THREADS="1", OMP_NUM_THREADS="1", MPLBACKEND="agg")
    with tempfile.TemporaryDirectory(prefix="ctm-fuzz-") as work:
        os.environ.update(MPLCONFIGDIR=work)  # a folder that stays, for what matplotlib keeps of fonts
        load_the_tools()
        from ctmtools.program.calls import program_path
        inputs.prepare(str(program_path()), Path(work))
        seconds = given.seconds * min(given.jobs, len(kinds)) / len(kinds)
        with ProcessPoolExecutor(given.jobs, get_context("fork")) as jobs:
            passed = sum(jobs.map(tried, kinds, *([it] * len(kinds) for it in (given, seconds, Path(work)))))
    print(f"{passed} passed" if passed == len(kinds) else f"{passed} passed, {len(kinds) - passed} failed")
    return 0 if passed == len(kinds) else 1


def load_the_tools():
    """Loads all modules of the tools, once for all cases."""
    package = importlib.import_module("ctmtools")
    for module in pkgutil.walk_packages(package.__path__, "ctmtools."):
        if not module.name.endswith("__main__"):
            importlib.import_module(module.name)
    import matplotlib.figure
    import scipy.optimize


def tried(kind, given, seconds, work):
    """Whether all cases of a kind passed that were tried in so many seconds."""
    ends, tried, findings = time.monotonic() + seconds, 0, 0
    for number in count() if given.case is None else [given.case]:
        if tried and given.case is None and time.monotonic() >= ends:
            break
        with tempfile.TemporaryDirectory(prefix="case-", dir=work) as folder:
            findings += not passes(kind, number, given, Path(folder))
        tried += 1
    print(f"{kind}: {tried} cases, {findings} findings", flush=True)
    return not findings


def passes(kind, number, given, folder):
    """Whether a case ended as it may."""
    case = inputs.KINDS[kind](random.Random(f"{given.seed} {kind} {number}"), folder)
    finding = called(call_of(case), folder, case.given).finding(case.statuses)
    if finding is None:
        return True
    words = shlex.join(it.decode(errors="backslashreplace") if isinstance(it, bytes) else it for it in case.words)
    print(f"{kind}: {finding}\n  {'ctm-tools' if case.by_tools else 'ctm'} {words[:300]}\n  tests/fuzz --seed {given.seed} "
          f"--kind {shlex.quote(kind)} --case {number}", flush=True)
    if given.keep:
        shutil.copytree(folder, given.keep / f"{given.seed} {kind} {number}".replace(" ", "-"), dirs_exist_ok=True)
    return False


def call_of(case):
    if case.by_tools:
        from ctmtools.command_line import main as tools
        return lambda: tools(case.words)
    return lambda: os.execv(inputs.PROGRAM, [inputs.PROGRAM, *case.words])


if __name__ == "__main__":
    sys.exit(main())
