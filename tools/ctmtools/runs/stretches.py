"""Runs that go on from a saved moment: one in stretches, which goes on where it was ended, and several futures of one moment.

The newest moment of a run in stretches is kept in a file. A future is of a network that agrees with the saved one up to the moment.
"""

from __future__ import annotations

from collections.abc import Callable, Sequence
from concurrent.futures import ThreadPoolExecutor
from pathlib import Path

from ..files.seals import sealed_text, unsealed_text
from ..files.writing import replace
from ..moments.agreement import difference
from ..moments.moment import BEGINNING, SUFFIX, Moment, Runner, moment_of
from ..network_file.naming import Naming
from ..network_file.network import Network, network_of
from ..problem import Problem
from ..program.calls import News, regions_for
from ..program.interrupt import INTERRUPTS, as_they_end
from ..report.reading import Report, report_of
from ..texts.quantities import duration
from ..units import Units
from .running import Prepared, kept, many_workers, opened, placed, processors

Reached = Callable[[int], object]  # takes the step of a moment that stands in its file


def kept_path(target: Path) -> Path:
    """Where the moments of a run are kept: beside its report."""
    return target.with_suffix(SUFFIX)


def stretch_of(every: str, units: Units) -> int:
    """The steps of a stretch: a whole number of them, or a time such as `30 min`."""
    if every.isdecimal():
        steps = int(every)
    elif units.step is None:
        raise Problem(f"--checkpoint {every}: the units aren't known, so say a number of steps")
    else:
        steps = round(float(duration(every, "--checkpoint")) / units.step)
    if steps < 1:
        raise Problem(f"--checkpoint {every}: must be a step or more")
    return steps


def kept_moment(path: Path, network: Network, units: Units) -> Moment | None:
    """The moment in a file, where there is one; one that was changed is refused, and that of another network, with what differs."""
    if not path.exists():
        return None
    content = path.read_bytes()
    if not content.startswith(BEGINNING):
        raise Problem(f"{path}: stands there and is no saved run; name another report with -o")
    text = unsealed_text(content, path, "take it away, and the run begins anew")
    if text is None:
        raise Problem(f"{path}: stands there and isn't whole, or `--checkpoint` didn't write it; take it away, and the run begins anew")
    moment = moment_of(text, str(path))
    if moment.network != network.content:
        raise Problem(f"{path}: is a saved run of another network: {_other(moment, network, units)}; take it away, or name "
                      "another report with -o")
    return moment


def _other(moment: Moment, network: Network, units: Units) -> str:
    """In what a network differs from the one of a saved moment."""
    naming = Naming(network, units)
    found = difference(network_of(moment.network, "the saved network"), network, moment.last, naming)
    if found is None:
        return f"the two differ behind {naming.time(moment.last)} alone, where `ctm-tools branch` goes on with both"
    return f"{found.told}, from {naming.time(found.step)} on"


def runner_of(prepared: Prepared, workers: int | None = None, news: News | None = None) -> Runner:
    """What runs a prepared network on so many threads, by default as many as it is worth."""
    threads = many_workers(len(prepared.network.kinds), workers)
    return Runner(str(prepared.path), regions_for(threads), threads, news)


def run_in_stretches(target: Path, prepared: Prepared, stretch: int, begun: Moment | None, runner: Runner,
                     reached: Reached | None = None) -> Report:
    """Runs a prepared network in stretches of so many steps, from a moment that was kept or from step 0.

    At the end of each stretch its moment is in the file beside the report that is to come; at the end of the run the report
    is written, and then the moment is taken away. The report is that of `ctm run`, without records.
    """
    moment, path = begun, kept_path(target)
    last = prepared.network.steps
    while (step := stretch * ((moment.last if moment else 0) // stretch + 1)) < last:
        moment = runner.later(moment, step) if moment else runner.moment(prepared.content, step)
        replace(path, sealed_text(moment.text))
        if reached:
            reached(step)
    text = runner.report(moment) if moment else runner.whole(prepared.content)
    report = kept(target, prepared, text, report_of(text, str(prepared.path)))
    path.unlink(missing_ok=True)
    return report


def futures_of(moment: Moment, name: str, sources: Sequence[str]) -> dict[str, Prepared]:
    """The networks of some studies or files by short names, each of which has the moment in common with the saved one."""
    saved = network_of(moment.network, f"{name}, its network")
    found = {}
    for source, short in zip(sources, _short_names(sources)):
        future = opened(source)
        naming = Naming(future.network, future.units)
        unlike = difference(saved, future.network, moment.last, naming)
        if unlike:
            raise Problem(f"{source}: is no future of {name}, since it differs from the saved network before "
                          f"{naming.time(moment.last)}: from {naming.time(unlike.step)} on {unlike.told}")
        if future.network.steps < moment.last:
            raise Problem(f"{source}: is no future of {name}: it ends at {naming.time(future.network.steps)}, before "
                          f"{naming.time(moment.last)}")
        found[short] = future
    return found


def _short_names(sources: Sequence[str]) -> list[str]:
    """The names of files without folders and endings; one that an earlier file has gets a number behind it."""
    found: list[str] = []
    for source in sources:
        stem = Path(source).stem
        names = (stem if number == 1 else f"{stem}-{number}" for number in range(1, len(sources) + 1))
        found.append(next(name for name in names if name not in found))
    return found


def reports_of(moment: Moment, futures: dict[str, Prepared], jobs: int | None = None, folder: Path | None = None,
               news: News | None = None, done: Callable[[], object] | None = None) -> dict[str, Report]:
    """The reports of some futures, so many of them run side by side; with a folder they are written there too.

    `done` is called as each of them is.
    """
    count = min(jobs or processors(), len(futures))
    threads = min(16, max(1, processors() // count))

    def run(future: Prepared) -> bytes:
        return Runner(str(future.path), workers=threads, news=news).report(moment.of(future.content))

    pool = ThreadPoolExecutor(count)
    try:
        begun = {pool.submit(run, future): name for name, future in futures.items()}
        texts = {}
        for ended in as_they_end(begun):
            texts[begun[ended]] = ended.result()
            if done:
                done()
    except BaseException:
        pool.shutdown(wait=False, cancel_futures=True)
        INTERRUPTS.end_groups()
        raise
    pool.shutdown()
    return {name: _report(name, future, texts[name], folder) for name, future in futures.items()}


def _report(name: str, future: Prepared, text: bytes, folder: Path | None) -> Report:
    report = report_of(text, name)
    if folder is None:
        report.units, report.network = future.units, future.network
        return report
    target = folder / f"{name}.report"
    try:
        folder.mkdir(parents=True, exist_ok=True)
    except OSError as error:
        raise Problem(f"{folder}: {error.strerror}") from None
    return kept(target, placed(future, target), text, report)
