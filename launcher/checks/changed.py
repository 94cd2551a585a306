"""What the changes that git knows of can reach: the crates above them, the test files, and the parts; and what that leaves out."""

import subprocess
import sys

from parts import PARTS, TOP, named
from reach import Tests
from run import Job, listed

sys.path.insert(0, str(TOP / "launcher"))

from crates import PROGRAMS, Crates
from programs import Missing

MAIN = "origin/main"
# The parts that a changed file has run whole, by the beginning of its path.
WHOLE = {
    "HANDLES": ("handles",),
    "crates": ("contracts", "counts", "plays"), "contracts.txt": ("contracts",), "docs/inside/PROVED.md": ("contracts",),
    "docs/inside/FIELD.md": ("plays",), "tests/plays": ("plays",),
    ".ci/": ("contracts", "counts", "launcher", "plays"),
    "check": ("launcher",), "ctm": ("launcher",), "launcher/": ("launcher", "small-proof"), "packaging/": ("launcher",),
    "launcher/checks/few.py": ("program", "launcher", "tools"),
    "tests/": ("counts",), "tools/tests/": ("counts",), "examples/": ("examples", "counts"),
    "tools/check": ("tools",), "tools/setup": ("tools",), "tools/find-python": ("tools",),
    "tests/program": ("program",), "tests/left_out_on_trials.txt": ("program", "launcher"), "tests/launcher": ("launcher",),
    "tools/tests/left_out_on_trials.txt": ("tools",),
    "tools/tests/studies/": ("tools",),
    "bench/stress-wait": ("stress",), "bench/cases.py": ("stress",), "bench/chains.py": ("stress",), "bench/loads.py": ("stress",),
    "tests/fuzz": ("fuzz",),
}
OF_PROGRAMS = ("program", "launcher", "examples", "tools", "stress")


def git(*words):
    """The lines that git gives; ends where it gives none for a fault."""
    try:
        # Names beyond ASCII are to stand as they are.
        ended = subprocess.run(["git", "-C", TOP, "-c", "core.quotePath=false", *words], stdout=subprocess.PIPE,
                               stderr=subprocess.PIPE, text=True)
    except OSError:
        raise Missing("git isn't on the path, so what was changed isn't known") from None
    if ended.returncode:
        raise Missing(f"git doesn't say what was changed: {(ended.stderr.splitlines() or ['it says nothing'])[-1]}")
    return ended.stdout.splitlines()


def base_of(commit):
    """The commit that the changes are counted from: the one that is named, or where this branch left main, or the last one."""
    if commit:
        return git("rev-parse", "--verify", f"{commit}^{{commit}}")[0]
    has_main = subprocess.run(["git", "-C", TOP, "rev-parse", "-q", "--verify", MAIN], stdout=subprocess.DEVNULL,
                              stderr=subprocess.DEVNULL).returncode == 0
    return git("merge-base", "HEAD", MAIN)[0] if has_main else git("rev-parse", "HEAD")[0]


def changed_paths(base):
    """The files that differ from a commit, and those that git doesn't know yet."""
    return sorted({*git("diff", "--name-only", "--no-renames", base), *git("ls-files", "--others", "--exclude-standard")})


def all_crates():
    return Crates(TOP, next(iter(PROGRAMS)))


def crates_above(paths):
    """The crates of which a file was changed, and those that stand on them, lowest first."""
    crates = all_crates()
    if "crates.txt" in paths:
        return list(crates.uses)
    changed = {path.split("/")[1] for path in paths if path.startswith("crates/")} & crates.uses.keys()
    return [name for name in crates.uses if changed & {name, *crates.below(name)}]


def parts_of(paths, crates):
    """The names of the parts that run whole."""
    found = {part for path in paths for begin, parts in WHOLE.items() if path.startswith(begin) for part in parts}
    return found | {part for part in OF_PROGRAMS if not PROGRAMS.keys().isdisjoint(crates)}


def jobs_of_change(commit, processes):
    """The jobs, what was changed in words, and lines on what is left out."""
    base = base_of(commit)
    paths = changed_paths(base)
    crates = crates_above(paths)
    whole, tests = parts_of(paths, crates), Tests(TOP)
    jobs = [Job(named("crate"), tuple(crates))] if crates else []
    left_out = []
    for part in PARTS:
        if part.is_for_words or part.name == "proofs":
            continue
        if part.name in whole:
            jobs.append(Job(part, processes=processes))
        elif part.is_by_pytest and (files := tests.reached(part.name, paths)):
            # The tools' tests run in their own folder.
            words = tuple(file.removeprefix("tools/") for file in files)
            jobs.append(Job(part, words, processes=min(processes, len(files))))
            if lacking := len(tests.files[part.name]) - len(files):
                left_out.append(f"{part.name}: {lacking} of its {len(tests.files[part.name])} test files")
        else:
            left_out.append(part.name)
    left_out.append(f"proofs: {len(all_crates().uses) - len(crates)} crates that stand on nothing changed")
    return jobs, f"{len(paths)} files differ from {base[:8]}; crates above them: {listed(crates)}", left_out
