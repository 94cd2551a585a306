"""./check [PART [WORDS] | --quick | --changed [COMMIT] | --list | --help]

  ./check               every proof, must-fail edit and test, one part after another, tests by as many processes as processors
  ./check --quick       all but proofs, edits, stress and fuzz, side by side, on the built program or else on a trial's
  ./check --changed     what the changes that git knows of can reach, and what that leaves out; since COMMIT, where one is named
  ./check PART [WORDS]  one part: tools tests/test_units.py -k mph, crate region_cut, program
  ./check --list        the parts, with what they need and the processor time that they take

The status is the worst of the parts', 2 where something is missing, 130 where Ctrl-C ends it.
"""

import os
import re
import sys
from signal import SIGPIPE

import programs as programs_of
from changed import all_crates, jobs_of_change
from few import UnreadableList
from needs import make, need_rt, needed
from parts import NAMES, PARTS, TOP, minutes, named, processor_seconds, rows
from programs import Missing
from run import Job, Run, listed, say
from running import Interrupted, end_all, heed_signals

AT_ONCE = 2  # parts side by side; those by pytest run as many processes each as there are processors


def main(words):
    heed_signals()
    try:
        return chosen(words)
    except (Missing, UnreadableList) as error:
        end_all()
        print(f"./check: {error}", file=sys.stderr)
        return 2
    except Interrupted as signal:
        end_all()
        say("./check: interrupted; passed: none, since no part had begun")
        return 128 + signal.number
    except BrokenPipeError:
        # Nobody reads on, as of `./check | head -n 1`.
        end_all()
        write_no_more()
        return 128 + SIGPIPE
    except OSError as error:
        # As of a disk that is full.
        end_all()
        print(f"./check: {error}", file=sys.stderr)
        write_no_more()
        return 2
    except Exception:
        # What was begun isn't left behind.
        end_all()
        raise


def write_no_more():
    os.dup2(os.open(os.devnull, os.O_WRONLY), sys.stdout.fileno())


def chosen(words):
    """Does what the words say."""
    match words:
        case []:
            return whole()
        case ["--quick"]:
            return quick()
        case ["--changed", *commit] if len(commit) < 2:
            return changed(*commit)
        case ["--list"]:
            return tell_parts()
        case ["--help" | "-h"]:
            say(__doc__.strip())
            return 0
        case [name, *rest] if named(name):
            return one(named(name), rest)
    raise Missing(f"there is no part or option {' '.join(words)}; the parts are {listed(NAMES)}; ./check --help lists the options")


def whole():
    processes = processors()
    jobs = [Job(part, processes=processes) for part in PARTS if not part.is_for_words]
    need_rt(jobs)
    make(jobs)
    tell_time(jobs)
    programs = programs_of.of_proofs()
    return ended(Run(jobs, programs, environment(programs), shows=os.environ.get("CI") == "true"))


def quick():
    processes = processors()
    # The longest first; those of no known time are the longest.
    jobs = [Job(part, processes=processes) for part in reversed(PARTS) if part.is_quick]
    taken = processor_seconds()
    jobs.sort(key=lambda job: -taken.get(job.part.name, float("inf")))
    return ended(with_programs(jobs, at_once=AT_ONCE), "but for proofs, edits, stress and fuzz: ")


def changed(commit=None):
    jobs, told, left_out = jobs_of_change(commit, processors())
    say(f"./check: {told}")
    status = ended(with_programs(jobs, at_once=AT_ONCE), "of what the changes reach: ") if jobs else 0
    for line in left_out:
        say(f"./check: left out: {line}")
    return status


def one(part, words):
    if words and not part.takes_words:
        raise Missing(f"./check {part.name} takes no words; nothing was run")
    if part.is_for_words and not (words and all_crates().uses.keys() >= {*words}):
        raise Missing(f"./check {part.name} takes the names of crates, as crates.txt has them")
    job = Job(part, tuple(words), processes=1 if words else processors())
    return with_programs([job], shows=True).go()


def with_programs(jobs, **how):
    """A run of the jobs, on the programs that there are where one of them needs these."""
    need_rt(jobs)
    is_shortened = any(job.part.on_trials and not job.words for job in jobs)
    programs = programs_of.chosen(lambda text: say(f"./check: {text}"), is_shortened) if "programs" in needed(jobs) else None
    make(jobs, programs)
    if len(jobs) > 1:
        tell_time(jobs)
    return Run(jobs, programs, environment(programs), **how)


def environment(programs):
    """A package that is missing fails the tools' tests, as it does in the gate. No variable of Python's leads the processes among
    which pytest shares its cases to other modules, since they aren't begun isolated.
    """
    around = {name: value for name, value in os.environ.items() if not name.startswith("PYTHON")}
    return {**around, "PYTHONNOUSERSITE": "1", "CI": "true", **(programs.environment() if programs else {})}


def tell_time(jobs):
    taken = processor_seconds()
    lacking = [job.part.name for job in jobs if job.part.name not in taken]
    seconds = sum(taken.get(job.part.name, 0) for job in jobs)
    without = f", without {listed(lacking)}" if lacking else ""
    say(f"./check: {len(jobs)} parts, {minutes(seconds)} processor-minutes by launcher/checks/times.csv{without}; there are "
        f"{processors()} processors")


def ended(run, meaning=""):
    status = run.go()
    if not run.is_interrupted:
        say(f"./check: {meaning}{'passed' if status == 0 else f'FAILED, status {status}'}: {', '.join(run.tallies) or 'all'}")
    return status


def tell_parts():
    say(f"{'part':12}{'min':>5}  processor-minutes by launcher/checks/times.csv")
    for name, checks, needs, time in rows():
        # The table of CONTRIBUTING.md has marks and links, and this has the paths.
        told = re.sub(r"\[[^]]*\]\(([^)]*)\)", r"\1", checks.replace("`", ""))
        say(f"{name:12}{time:>5}  {told}{f'; needs {needs}' if needs else ''}".replace("`", ""))
    return 0


def processors():
    return len(os.sched_getaffinity(0))


sys.exit(main(sys.argv[1:]))
