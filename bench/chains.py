"""What the scripts of bench share: a chain of cells, the made network of docs/FORMAT.md, the programs that are run, and
what is said of the machine.
"""

import hashlib
import os
import platform
import random
import shutil
import subprocess
import tempfile

TOP = os.path.dirname(os.path.dirname(os.path.realpath(__file__)))
MOST_BYTES = 16_777_216  # of an input


def chain(roads, steps, first, leaves, name="m%d".__mod__, amount=str, whole=str):
    """A gate, a chain of equal roads and an exit, as lines: 4 vehicles a step arrive, `leaves` can leave."""
    yield from ("ctm,1", f"steps,{steps}", "gate,on,5,0")
    for i in range(roads):
        yield f"road,{name(i)},{amount(30)},{amount(5)},{whole(1)},{whole(5)},{amount(first)}"
    yield f"exit,off,{leaves}"
    yield f"link,on,{name(0)}"
    for i in range(roads - 1):
        yield f"link,{name(i)},{name(i + 1)}"
    yield f"link,{name(roads - 1)},off"
    yield f"demand,on,0,{steps},4"


def amount_of(parts):
    """An amount as the report prints it."""
    return f"{parts // 1_000_000}.{parts % 1_000_000:06}"


def corridor(size, seed, dense=False, steps=None):
    """The lines of the made network of docs/FORMAT.md, or with so many steps. Where it is dense, demand comes in all steps
    and not in 20.
    """

    def draws():
        state = seed
        while True:
            state = (6364136223846793005 * state + 1442695040888963407) % 2**64
            yield state >> 32

    draw, steps = draws(), steps or 40 + 2 * size
    last = steps if dense else 20
    yield from ("ctm,1", f"steps,{steps}", "gate,g,2,0")
    for i in range(size):
        yield f"road,m{i},12,4,1,2,0"
        if i % 8 == 3:
            yield f"gate,r{i},1,0"
        if i % 8 == 6 and i < size - 1:
            yield f"exit,f{i},2"
    yield from ("exit,out,4", "link,g,m0")
    for i in range(size - 1):
        if i % 8 == 6:
            yield f"diverge,m{i},m{i + 1},f{i},4,1"
        elif i % 8 == 2:
            yield f"merge,m{i},r{i + 1},m{i + 1},3,1"
        else:
            yield f"link,m{i},m{i + 1}"
    yield f"link,m{size - 1},out"
    yield f"demand,g,0,{last},{amount_of(1_000_000 + next(draw) % 2_000_001)}"
    for i in range(3, size, 8):
        yield f"demand,r{i},0,{last},{amount_of(100_000 + next(draw) % 400_001)}"
    for i in range(8, size, 8):
        yield f"signal,m{i},6,{next(draw) % 6},0,4"
    if size >= 2:
        yield f"limit,m{next(draw) % size},10,20,1"


def large(lines):
    """The same network in format 2, which allows twice as many cells."""
    return ["ctm,2", *list(lines)[1:]]


def shuffled(lines, seed):
    """The same network with its cells in a random order. The connectors and the other records stand behind them as before."""
    lines = list(lines)
    cells = [line for line in lines if line.startswith(("road,", "gate,", "exit,"))]
    rest = [line for line in lines[2:] if not line.startswith(("road,", "gate,", "exit,"))]
    random.Random(seed).shuffle(cells)
    return [*lines[:2], *cells, *rest]


def lines_of(lines):
    return "\n".join(lines) + "\n"


def proved_program(words):
    """The program that the first of these words names, or the proved one, built first where it has to be."""
    if words:
        return os.path.abspath(words[0])
    smallest = b"ctm,1\nsteps,1\nexit,x,0\n"
    subprocess.run([os.path.join(TOP, "ctm"), "run"], input=smallest, stdout=subprocess.DEVNULL, check=True)
    return os.path.join(TOP, "crates/ctm_program/out/ctm_program")


def waiting_program(words):
    """The same of the program whose workers wait."""
    if words:
        return os.path.abspath(words[0])
    path = subprocess.run([os.path.join(TOP, "ctm-wait"), "--path"], stdout=subprocess.PIPE, check=True, text=True)
    return path.stdout.strip()


def twin():
    """The program of twin.rs, or None where there is no rustc."""
    return of_rust("twin")


def tuned():
    """The program of tuned.rs, or None where there is no rustc."""
    return of_rust("tuned")


def of_rust(name):
    """The program of a source of bench, built where it isn't yet for the processor that the proved one is built for, or None
    where there is no rustc.
    """
    if not shutil.which("rustc"):
        return None
    source = os.path.join(TOP, f"bench/{name}.rs")
    with open(source, "rb") as text:
        name = f"{name}-{hashlib.sha256(text.read()).hexdigest()[:16]}"
    folder = os.path.join(tempfile.gettempdir(), f"ctm-twin-{os.getuid()}")
    os.makedirs(folder, mode=0o700, exist_ok=True)
    program = os.path.join(folder, name)
    if not os.path.exists(program):
        built = f"{program}.{os.getpid()}"
        subprocess.run(["rustc", "--edition", "2024", "-O", "-Ctarget-cpu=x86-64-v2", source, "-o", built], check=True)
        os.replace(built, program)
    return program


def machine():
    with open("/proc/cpuinfo", encoding="utf-8") as info:
        models = [line.split(":")[1].strip() for line in info if line.startswith("model name")]
    return f"{models[0] if models else platform.machine()}, {os.cpu_count()} processors, Linux {platform.release()}"


def others():
    """The processor seconds that other work had since the machine began, by the clock of the system."""
    with open("/proc/stat", encoding="ascii") as stat:
        user, nice, system, _idle, _waits, *rest = map(int, stat.readline().split()[1:9])
    return (user + nice + system + sum(rest)) / os.sysconf("SC_CLK_TCK") - sum(os.times()[:4])
