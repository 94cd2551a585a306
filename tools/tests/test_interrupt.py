"""Ctrl-C and bars: whatever a command is at, it ends soon with one line and status 130, what was done is kept, and only a
terminal sees how much is left."""

import os
import pty
import re
import select
import signal
import subprocess
import sys
import time

import pytest
from launched import slowness

from .examples import EXAMPLES, TOOLS
from .test_actuated import FOLLOW, STUDY
from .test_meter import METER, RAMP, small

SOON = 2.0  # seconds, on a machine that has nothing else to do
STREET = str(EXAMPLES / "arterial-0.toml")
OFFSETS = ["--vary", "signals.offset=0:110:10"]
DETECTORS = "place,start,end,flow\nc.1,07:15,07:45,800\n"
ACTUATED = STUDY.format(a=540, b=360, first=FOLLOW, follow=FOLLOW, more="")
CALIBRATE = ["calibrate", STREET, "--observed", "seen.csv", "--vary", "demand=0.7:1.1"]


# The tools with so many times the time until a command that was interrupted, or the program, is ended from within.
CODE = """
import sys
from ctmtools import command_line
from ctmtools.program import interrupt, processes
patience = float(sys.argv.pop(1))
interrupt.PATIENCE *= patience
interrupt.LEAVE *= patience
processes.LEAVE *= patience
command_line.main()
"""
# The same, where a process takes a while to begin.
SLOWLY = """
import subprocess, time
begin = subprocess.Popen.__init__
def slowly(self, *words, **terms):
    begin(self, *words, **terms)
    time.sleep(1)
subprocess.Popen.__init__ = slowly
""" + CODE
PATIENT = 20.0  # where it isn't asked how soon a command ends


def heeds_an_interrupt():
    """Also where these tests run behind a shell or nohup that has signals ignored."""
    for number in signal.SIGINT, signal.SIGTERM, signal.SIGHUP:
        signal.signal(number, signal.SIG_DFL)


def stand_in(folder, program, call, does):
    """A program that is the built one, but does something else from one of its calls on: it makes `reached` and sleeps."""
    path = folder / "stand-in"
    path.write_text(f"#!/bin/bash\necho x >> {folder}/count\nif [ $(wc -l < {folder}/count) -ge {call} ]; then touch {folder}/reached; "
                    f"{does}; fi\nexec {program} \"$@\"\n")
    path.chmod(0o755)
    return str(path)


def started(folder, words, program, patience=PATIENT, code=CODE, **streams):
    return subprocess.Popen([sys.executable, "-c", code, str(patience), *map(str, words)], cwd=folder, text=True,
                            env={**os.environ, "PYTHONPATH": str(TOOLS), "CTM_PROGRAM": program, "COLUMNS": "100"},
                            preexec_fn=heeds_an_interrupt, start_new_session=True, **streams)


def wait_for(path, process, seconds=600):
    end = time.monotonic() + seconds
    while not path.exists():
        assert process.poll() is None and time.monotonic() < end, process.communicate()
        time.sleep(0.02)


def interrupted(folder, words, program, patience=PATIENT):
    """Interrupts a command, and all of its group as a terminal does; gives status, errors and the seconds until its end."""
    process = started(folder, words, program, patience, stdout=subprocess.PIPE, stderr=subprocess.PIPE)
    wait_for(folder / "reached", process)
    begun = time.monotonic()
    os.killpg(process.pid, signal.SIGINT)
    _, err = process.communicate(timeout=600)
    return process.returncode, err, time.monotonic() - begun


def sleepers(folder):
    """Whether a process of the stand-in in a folder still lives after a while."""
    for _ in range(600):
        if subprocess.run(["pgrep", "-f", f"{folder}/stand-in"], capture_output=True).stdout == b"":
            return False
        time.sleep(0.1)
    return True


# What each command is at when it is interrupted, after so many calls of the program, and what it says.
CASES = {
    "run": (["run", STREET], 2, "interrupted"),
    "run in stretches": (["run", STREET, "--checkpoint", "20 min"], 4, "stopped; the same call goes on from 07:40"),
    "lint": (["lint", EXAMPLES / "event.csv"], 1, "interrupted"),
    "sweep": (["sweep", STREET, *OFFSETS, "-j", "1"], 8, r"stopped with \d+ of 12 runs left; the same call goes on with them"),
    "sweep on processes": (["sweep", STREET, *OFFSETS, "-j", "2"], 8, r"stopped with \d+ of 12 runs left; the same call goes on"),
    "choose": (["choose", STREET, "--vary", "signals.offset=0:110:5"], 2, "stopped with 7 of 23 plans left; the same call goes on"),
    "optimise": (["optimise", EXAMPLES / "arterial-ten.toml", "--signals"], 3, "stopped after 32 runs; the same call goes on"),
    "draw": (["draw", EXAMPLES / "uncertain.toml", "-j", "1"], 8, r"stopped with 9\d of 100 runs left; the same call goes on with them"),
    "draw before its first run": (["draw", EXAMPLES / "uncertain.toml"], 1, "stopped; nothing is kept$"),
    "sweep before its first run": (["sweep", STREET, *OFFSETS, "-j", "1"], 1, "stopped; nothing is kept$"),
    "optimise before its first run": (["optimise", EXAMPLES / "arterial-ten.toml", "--signals"], 1, "stopped; nothing is kept$"),
    "calibrate before its first run": (CALIBRATE, 1, "stopped; nothing is kept$"),
    "choose before its first run": (["choose", STREET, "--vary", "signals.offset=0:110:5"], 1, "stopped; nothing is kept$"),
    "assign of several parts": (["assign", EXAMPLES / "bypass.toml", "--informed", "0,1", "-j", "1"], 3, "stopped; nothing is kept$"),
    "run of greens that follow traffic": (["run", "actuated.toml"], 12, "stopped; the same call goes on from the greens in actuated.actuated.json"),
    "meter": (["meter", EXAMPLES / "feedback.toml"], 12, "stopped; the same call goes on from the last interval"),
    "calibrate": (CALIBRATE, 6, r"stopped after \d+ runs; the same call goes on"),
    "branch": (["branch", TOOLS / "tests/studies/corridor.saved", "corridor.csv", "corridor.csv"], 1, "interrupted"),
}


@pytest.mark.parametrize("case", CASES)
def test_an_interrupt_ends_it_soon_with_one_line(tmp_path, program, case):
    words, call, line = CASES[case]
    (tmp_path / "seen.csv").write_text(DETECTORS)
    (tmp_path / "actuated.toml").write_text(ACTUATED)
    saved = (TOOLS / "tests/studies/corridor.saved").read_bytes()
    (tmp_path / "corridor.csv").write_bytes(saved.partition(b"\nnet\n")[2])
    before = {path.name for path in tmp_path.iterdir()}
    took = []
    for _ in range(5):  # the machine may be busy, so several tries have to be slow before it is a fault
        (tmp_path / "count").unlink(missing_ok=True)
        (tmp_path / "reached").unlink(missing_ok=True)
        slow = slowness()
        status, err, seconds = interrupted(tmp_path, words, stand_in(tmp_path, program, call, f"exec -a {tmp_path}/stand-in sleep 1000"),
                                           slow)
        assert status == 130 and err.count("\n") == 1 and err.startswith("ctm-tools: "), (status, err)
        took.append((seconds, SOON * max(slow, slowness()), err))
        if seconds < took[-1][1] and re.match(f"ctm-tools: {line}", err):
            break
        subprocess.run(["rm", "-rf", *(str(path) for path in tmp_path.iterdir() if path.name not in before)])
    else:
        pytest.fail(str(took))
    assert not sleepers(tmp_path) and not list(tmp_path.glob("*.report")) and not list(tmp_path.glob(".*.ctm-*"))


@pytest.mark.parametrize("words, call, done", [
    (["choose", STREET, "--vary", "signals.offset=0:110:5"], 2, "16 of 23 plans stand in arterial-0.choose/plans.csv already"),
    (CALIBRATE, 6, r"\d+ runs stand in arterial-0.calibrate/tried.csv already"),
    (["sweep", STREET, *OFFSETS, "-j", "1"], 8, r"\d+ of 12 runs stand in")], ids=["choose", "calibrate", "sweep"])
def test_what_was_done_is_kept_and_the_same_call_goes_on(tool, tmp_path, program, words, call, done):
    (tmp_path / "seen.csv").write_text(DETECTORS)
    assert interrupted(tmp_path, words, stand_in(tmp_path, program, call, "exec sleep 1000"))[0] == 130
    status, out, err = tool(*words)
    assert status == 0 and re.match(done, out) and not err
    for path in tmp_path.glob("arterial-0.*/"):
        subprocess.run(["rm", "-r", path])
    whole = tool(*words)[1]
    assert [line for line in whole.splitlines() if "runs" not in line] == \
        [line for line in out.splitlines()[len(out.splitlines()) - len(whole.splitlines()):] if "runs" not in line]


def test_a_metered_run_goes_on_to_the_same_rates(tool, tmp_path, program):
    small(tmp_path, RAMP + METER)
    words, names = ["meter", "study.toml", "--rates", "rates.csv"], ("rates.csv", "study-metered.report", "study-metered.csv")
    assert interrupted(tmp_path, words, stand_in(tmp_path, program, 12, "exec sleep 1000"))[0] == 130
    assert (tmp_path / "study-metered.meter.json").exists()
    assert tool(*words)[0] == 0
    gone_on = [(tmp_path / name).read_bytes() for name in names]
    assert not (tmp_path / "study-metered.meter.json").exists()
    assert tool(*words)[0] == 0
    assert gone_on == [(tmp_path / name).read_bytes() for name in names]


def test_a_run_of_greens_goes_on_to_the_same_ones(tool, tmp_path, program):
    (tmp_path / "actuated.toml").write_text(ACTUATED)
    words, names = ["run", "actuated.toml", "-o", "out.report"], ("out.report", "out.csv", "out.units.json")
    assert interrupted(tmp_path, words, stand_in(tmp_path, program, 12, "exec sleep 100"))[0] == 130
    assert (tmp_path / "out.actuated.json").exists()
    gone_on = tool(*words)
    files = [(tmp_path / name).read_bytes() for name in names]
    assert gone_on[0] == 0 and not (tmp_path / "out.actuated.json").exists()
    assert tool(*words) == gone_on and files == [(tmp_path / name).read_bytes() for name in names]


@pytest.mark.parametrize("case", ["run", "sweep on processes", "branch"])
@pytest.mark.parametrize("number", [signal.SIGTERM, signal.SIGHUP])
def test_what_ends_a_command_from_outside_ends_the_program_too(tmp_path, program, case, number):
    words, call, _ = CASES[case]
    (tmp_path / "corridor.csv").write_bytes((TOOLS / "tests/studies/corridor.saved").read_bytes().partition(b"\nnet\n")[2])
    process = started(tmp_path, words, stand_in(tmp_path, program, call, f"exec -a {tmp_path}/stand-in sleep 1000"),
                      stdout=subprocess.DEVNULL, stderr=subprocess.DEVNULL)
    wait_for(tmp_path / "reached", process)
    process.send_signal(number)
    assert process.wait(600) == -number
    assert not sleepers(tmp_path)


def test_what_is_begun_as_a_command_is_ended_from_outside_is_ended_too(tmp_path, program):
    """Two futures are begun at once, and the signal comes while both calls of the program are being begun."""
    words, call, _ = CASES["branch"]
    (tmp_path / "corridor.csv").write_bytes((TOOLS / "tests/studies/corridor.saved").read_bytes().partition(b"\nnet\n")[2])
    process = started(tmp_path, words, stand_in(tmp_path, program, call, f"exec -a {tmp_path}/stand-in sleep 1000"), code=SLOWLY,
                      patience=5.0, stdout=subprocess.DEVNULL, stderr=subprocess.DEVNULL)
    wait_for(tmp_path / "reached", process)
    process.send_signal(signal.SIGTERM)
    assert process.wait(600) == -signal.SIGTERM
    assert not sleepers(tmp_path)


# A signal that comes just before a wait doesn't end it, nor does one that another thread gets, as here.
TO_ANOTHER = """
import os, signal, sys, threading, time
from ctmtools import command_line
def send(number):
    while not os.path.exists("reached"):
        time.sleep(0.02)
    time.sleep(0.3)
    signal.pthread_kill(threading.get_ident(), number)
threading.Thread(target=send, args=(int(sys.argv.pop(1)),), daemon=True).start()
command_line.main()
"""


@pytest.mark.parametrize("number, status", [(signal.SIGTERM, -signal.SIGTERM), (signal.SIGHUP, -signal.SIGHUP), (signal.SIGINT, 130)])
@pytest.mark.parametrize("words", [["lint", EXAMPLES / "event.csv"], ["import", "osm", EXAMPLES / "lane-drop.osm"]], ids=["ctm", "netconvert"])
def test_a_signal_that_does_not_end_a_wait_is_heeded(tmp_path, words, number, status):
    path = tmp_path / "netconvert"
    path.write_text(f"#!/bin/bash\ntouch {tmp_path}/reached\nexec -a {tmp_path}/stand-in sleep 1000\n")
    path.chmod(0o755)
    around = {**os.environ, "PYTHONPATH": str(TOOLS), "CTM_PROGRAM": str(path), "PATH": f"{tmp_path}:{os.environ['PATH']}"}
    process = subprocess.Popen([sys.executable, "-c", TO_ANOTHER, str(int(number)), *map(str, words)], cwd=tmp_path, env=around,
                               preexec_fn=heeds_an_interrupt, start_new_session=True, stdout=subprocess.DEVNULL, stderr=subprocess.DEVNULL)
    try:
        assert process.wait(600) == status
        assert not sleepers(tmp_path)
    finally:
        for group in os.popen(f"pgrep -f {tmp_path}/stand-in").read().split():
            os.kill(int(group), signal.SIGKILL)


def test_a_program_that_builds_has_time_to_end_what_it_began(tmp_path):
    # As ./ctm does: it ends the processes that it began in groups of their own, and says so.
    path = tmp_path / "stand-in"
    path.write_text(f"""#!/bin/bash
setsid bash -c 'exec -a {tmp_path}/stand-in-began sleep 1000' &
began=$!
trap 'kill $began; echo "./ctm: ended from outside by SIGTERM, so nothing was run" >&2; exit 125' TERM
echo './ctm: building' >&2
sleep 2  # in which the line is handed on
touch {tmp_path}/reached
wait
""")
    path.chmod(0o755)
    status, err, _ = interrupted(tmp_path, ["lint", EXAMPLES / "event.csv"], str(path))
    assert (status, err) == (130, "./ctm: building\nctm-tools: interrupted\n") and not sleepers(tmp_path)


BUILDING = """#!/bin/bash
trap 'echo "./ctm: ended from outside by SIGTERM, so nothing was run" >&2; exit 125' TERM
echo "./ctm: the program isn't built of the sources that stand here" >&2
sleep 1  # in which the line is handed on
touch {folder}/reached
while true; do sleep 0.1; done
"""


def test_what_ends_a_build_from_outside_is_no_interrupt_and_what_began_is_said_at_once(tmp_path):
    path = tmp_path / "stand-in"
    path.write_text(BUILDING.format(folder=tmp_path))
    path.chmod(0o755)
    process = started(tmp_path, ["sweep", STREET, *OFFSETS], str(path), stdout=subprocess.PIPE, stderr=subprocess.PIPE)
    assert process.stderr.readline() == "./ctm: the program isn't built of the sources that stand here\n"
    wait_for(tmp_path / "reached", process)
    process.send_signal(signal.SIGTERM)
    _, err = process.communicate(timeout=600)
    assert process.returncode == -signal.SIGTERM and "interrupted" not in err and not sleepers(tmp_path)


def test_an_interrupt_that_a_library_takes_for_a_fault_of_the_file(tmp_path):
    # pandas makes of an interrupt while it reads the fault that the text can't be read, which would blame the counts.
    (tmp_path / "seen.csv").write_text(DETECTORS)
    code = f"""
import os, signal, sys
import pandas
from ctmtools.command_line import main
def read_csv(*words, **named):
    try:
        os.kill(os.getpid(), signal.SIGINT)
        import time; time.sleep(5)
    except KeyboardInterrupt:
        raise pandas.errors.ParserError("Calling read(nbytes) on source failed")
pandas.read_csv = read_csv
main(["detectors", {str(tmp_path / "seen.csv")!r}])"""
    ended = subprocess.run([sys.executable, "-c", code], capture_output=True, text=True, preexec_fn=heeds_an_interrupt,
                           env={**os.environ, "PYTHONPATH": str(TOOLS)})
    assert (ended.returncode, ended.stderr, ended.stdout) == (130, "ctm-tools: interrupted\n", "")


def test_what_does_not_heed_an_interrupt_is_ended(tmp_path, reports):
    code = f"""
import os, signal, time
from ctmtools.command_line import main
from ctmtools.report import reading
def report_of(*words):
    os.kill(os.getpid(), signal.SIGINT)
    while True:
        try:
            time.sleep(60)
        except KeyboardInterrupt:
            pass
reading.report_of = report_of
try:
    main(["table", {str(reports("bottleneck"))!r}])
except BaseException as error:
    print(error)"""
    code = code.replace("    os.kill(", "    try:\n        os.kill(").replace("SIGINT)\n    while", "SIGINT)\n    except KeyboardInterrupt:\n        pass\n    while")
    ended = subprocess.run([sys.executable, "-c", code], capture_output=True, text=True, preexec_fn=heeds_an_interrupt,
                           timeout=600, env={**os.environ, "PYTHONPATH": str(TOOLS)})
    assert (ended.returncode, ended.stderr) == (130, "ctm-tools: interrupted\n")


# An interrupt as a command ends: while its watcher is taken leave of, and as Python ends, before what was registered first.
ENDING = {"the watcher": """
from ctmtools.program import interrupt
woken = interrupt.INTERRUPTS.woken
def set_(set=woken.set):
    os.kill(os.getpid(), signal.SIGINT)
    set()
woken.set = set_
""", "Python's end": """
import atexit
atexit.register(lambda: (os.kill(os.getpid(), signal.SIGINT), time.sleep(0.1)))
"""}


@pytest.mark.parametrize("at", ENDING)
def test_an_interrupt_of_a_command_that_is_done_changes_nothing(tmp_path, at):
    code = f"import os, signal, time\n{ENDING[at]}\nfrom ctmtools.command_line import main\nmain(['build', {str(EXAMPLES / 'event.toml')!r}])"
    ended = subprocess.run([sys.executable, "-c", code], capture_output=True, text=True, preexec_fn=heeds_an_interrupt, cwd=tmp_path,
                           env={**os.environ, "PYTHONPATH": str(TOOLS)})
    assert (ended.returncode, ended.stderr) == (0, "") and (tmp_path / "event.csv").exists()


@pytest.mark.parametrize("words, where, name", [
    (["table", "REPORT", "-o", "t.csv", "--force"], "pandas.DataFrame.to_csv", "t.csv"),
    (["plot", "delay", "REPORT", "-o", "p.png", "--force"], "matplotlib.figure.Figure.savefig", "p.png"),
    (["plot", "delay", "REPORT", "-o", "p.png", "--force"], "os.replace", "p.png")], ids=["table", "plot", "replaced"])
def test_an_interrupt_leaves_what_stood_there(tool, reports, tmp_path, monkeypatch, words, where, name):
    def stopped(*_, **__):
        raise KeyboardInterrupt
    (tmp_path / name).write_text("old")
    path = reports("arterial-0")
    monkeypatch.setattr(where, stopped)
    status, out, err = tool(*(path if word == "REPORT" else word for word in words))
    assert (status, err) == (130, "ctm-tools: interrupted\n")
    assert (tmp_path / name).read_text() == "old" and os.listdir(tmp_path) == [name]


def on_terminal(folder, words, program):
    """What a terminal shows on standard error of a command that goes to its end."""
    first, second = pty.openpty()
    process = started(folder, words, program, stdout=subprocess.DEVNULL, stderr=second)
    os.close(second)
    shown, end = b"", time.monotonic() + 600
    while time.monotonic() < end:
        if not select.select([first], [], [], 0.5)[0]:
            continue
        try:
            part = os.read(first, 4096)
        except OSError:  # its other end is closed
            break
        shown += part
        if not part:
            break
    os.close(first)
    assert process.wait(600) == 0, shown
    return shown.decode()


LEFT = r"(  \d\d:\d\d:\d\d)?"  # how long the rest takes, which is known after a second


@pytest.mark.parametrize("words, bar", [
    (["sweep", STREET, "--vary", "signals.offset=0:30:10", "-j", "1"], r"4 runs on 1 process  \[#+-+\]  [1-3]/4  \d\d:\d\d:\d\d"),
    (["run", STREET, "--checkpoint", "20 min"], rf"stretches  \[#+-+\]  2/4{LEFT}  at 07:40"),
    (["choose", STREET, "--vary", "signals.offset=0:110:5"], rf"23 plans  \[#+-+\]  16/23{LEFT}"),
    (["optimise", STREET, "--signals", "--generations", "2", "--population", "5"],
     rf"2 generations  \[#+-+\]  1/2{LEFT}  10 runs, least delay [\d.]+ vehicle-hours"),
    ([*CALIBRATE, "--runs", "6", "--first", "4"], rf"runs at most  \[#+-+\]  \d+/19{LEFT}  distance"),
    (["meter", EXAMPLES / "feedback.toml"], rf"intervals  \[#+-+\]  \d+/\d+{LEFT}"),
    (["assign", EXAMPLES / "bypass.toml", "--iterations", "3"], rf"rounds at most  \[#+-+\]  1/3{LEFT}  gap [\d.]+"),
    (["assign", EXAMPLES / "bypass.toml", "--iterations", "2", "--informed", "0.2,0.4", "-o", "table.csv"],
     rf"2 assignments  \[#+-+\]  1/2{LEFT}")],
    ids=lambda value: value[0] if isinstance(value, list) else "")
def test_a_terminal_sees_what_is_left_and_nothing_else_does(tmp_path, program, words, bar):
    (tmp_path / "seen.csv").write_text(DETECTORS)
    slow = stand_in(tmp_path, program, 1, "sleep 0.6") if words[0] == "sweep" else program
    shown = on_terminal(tmp_path, words, slow)
    assert re.search(bar, shown), shown
    for path in tmp_path.glob("arterial-0.*/"):
        subprocess.run(["rm", "-r", path])
    process = started(tmp_path, words, program, stdout=subprocess.DEVNULL, stderr=subprocess.PIPE)
    assert process.communicate(timeout=600)[1] == "" and process.returncode == 0
