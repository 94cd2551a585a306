"""The kinds of input that are tried: of each a file that is right, how it is changed, and the calls that read it."""

import gzip
import importlib.util
import shutil
import subprocess
from dataclasses import dataclass
from pathlib import Path

from made_networks import made_network
from mutations import LONG, TEXTS, mutated

HERE = Path(__file__).resolve().parent
TOP = HERE.parents[1]
EXAMPLES = TOP / "examples"
NETWORKS = [path.read_bytes() for path in sorted(EXAMPLES.glob("*.csv"))]
# What the program may answer: a text, refused words and input, and a failed read or write. 7, out of memory, is a finding.
OF_THE_PROGRAM = (0, 2, 3, 4, 5, 6, 8, 9)
OF_THE_TOOLS = (0, 1, 2)
MODES = ("run", "watch", "sample", "save", "resume", "choose", "recut", "cut", "check", "convert")
OPTIONS = ("regions", "cut", "parts", "workers", "every", "shots", "until", "size", "seed")
VALUES = ("0", "1", "2", "3", "7", "16", "17", "64", "100", "512", "513", "100000", "100001", "999999999", "1000000000", "auto",
          "even", "grown", "", "-1", "+1", "1.0", "0x1", "\u0661", "1e3")


@dataclass(frozen=True)
class Case:
    """The words of a call of the program or of the tools, and the file that is its standard input."""

    words: list[str | bytes]
    given: Path | None = None
    by_tools: bool = False

    @property
    def statuses(self):
        return OF_THE_TOOLS if self.by_tools else OF_THE_PROGRAM


def put(path, content):
    path.parent.mkdir(parents=True, exist_ok=True)
    path.write_bytes(content)
    return path


def some(draw, *choices):
    """The words of one of these calls."""
    return draw.choice(choices).split()


def a_network(draw):
    if draw.random() < 0.5:
        return draw.choice(NETWORKS)
    return made_network(draw.randrange(1_000_000), draw.randint(1, 60), draw.randint(1, 60), draw.randint(1, 3),
                        draw.choice((0, 3)), speeds=draw.choice((0, 0.5)))


def networks(draw, folder):
    words = some(draw, "run", "run --every 60", "run --workers 3 --regions auto", "run --cut grown --regions 5", "watch --shots 3", "check",
                 "convert", "cut --regions 4", "save --until 20 --workers 2", "recut --parts 3 --regions 2")
    return Case(words, put(folder / "network", mutated(draw, a_network(draw))))


def saved_texts(draw, folder):
    words = ["save", "--until", str(draw.randint(0, 60)), "--regions", str(draw.randint(1, 5))]
    saved = subprocess.run([PROGRAM, *words], input=a_network(draw), stdout=subprocess.PIPE, check=True).stdout
    return Case(some(draw, "resume", "resume --workers 3"), put(folder / "saved", mutated(draw, saved)))


def plans(draw, folder):
    return Case(["choose"], put(folder / "plans", mutated(draw, (EXAMPLES / "arterial-ten.plans").read_bytes())))


def words(draw, folder):
    def word():
        return draw.choice((draw.choice(MODES), f"--{draw.choice(OPTIONS)}", f"--{draw.choice(OPTIONS)}={draw.choice(VALUES)}",
                            draw.choice(VALUES), "--", "-h", "--help", "-", f"--{draw.choice(MODES)}", "\u00e9" * 9))
    given = [draw.choice(MODES), *(word() for _ in range(draw.choice((0, 1, 2, 2, 3, 5, 50))))]
    draw.shuffle(given)
    if draw.random() < 0.3:
        given.insert(draw.randrange(len(given) + 1), mutated(draw, b"--workers=3").replace(b"\0", b"")[:100_000])
    return Case([it if isinstance(it, bytes) else it.encode() for it in given], put(folder / "network", draw.choice(NETWORKS)))


def studies(draw, folder):
    studies = [HERE / "corridor.toml"] * 5 + sorted(EXAMPLES.glob("*.toml"))
    for path in EXAMPLES.glob("detectors-*"):
        shutil.copy(path, folder)
    put(folder / "study.toml", mutated(draw, draw.choice(studies).read_bytes()))
    return Case(some(draw, "build study.toml", "build study.toml", "run study.toml", "sweep study.toml --vary demand=0.5,1 --jobs 1",
                     "assign study.toml", "draw study.toml --runs 2 --jobs 1"), by_tools=True)


def packed_or_not(draw, folder, name, content):
    """Writes a file, now and then packed, which then is what is changed once more; gives its name."""
    if draw.random() < 0.9:
        return put(folder / name, content).name
    packed = gzip.compress(content, mtime=0)
    return put(folder / f"{name}.gz", mutated(draw, packed) if draw.random() < 0.7 else packed).name


def changed_one(draw, contents):
    """The contents, of which one is changed, or now and then each."""
    changed = draw.choice(sorted(contents))
    return {name: mutated(draw, it) if name == changed or draw.random() < 0.2 else it for name, it in contents.items()}


def sumo(draw, folder):
    contents = changed_one(draw, {name: (HERE / name).read_bytes() for name in ("town.net.xml", "town.rou.xml")})
    net, routes = (packed_or_not(draw, folder, name, it) for name, it in contents.items())
    return Case(["import", "sumo", net, *some(draw, "--step 2", f"--routes {routes}", f"--routes {routes} --until 3600"), "-o", "town.toml"],
                by_tools=True)


def osm(draw, folder):
    put(folder / "lane-drop.osm", mutated(draw, (EXAMPLES / "lane-drop.osm").read_bytes()))
    return Case(["import", "osm", "lane-drop.osm", "-o", "town.toml"], by_tools=True)


def gmns(draw, folder):
    for name, content in changed_one(draw, {path.name: path.read_bytes() for path in (HERE / "gmns").iterdir()}).items():
        put(folder / "town" / name, content)
    return Case(["import", "gmns", "town", "-o", "town.toml"], by_tools=True)


def detectors(draw, folder):
    form = draw.choice(sorted(FORMS))
    lines = FORMS[form].splitlines(keepends=True)[:draw.choice((40, 300))]
    name = packed_or_not(draw, folder, "counts.csv", mutated(draw, b"".join(lines)))
    return Case([*some(draw, "detectors", "detectors --station 101 --leave-out all", "detectors --average median --missing zero",
                       "diagram --station 102"), name, *some(draw, "", "-o out.csv")], by_tools=True)


def reports(draw, folder):
    """A report with what lies beside it, of which one file is changed."""
    for name, content in changed_one(draw, REPORT).items():
        put(folder / name, content)
    words = some(draw, "report a.report", "table a.report", "table a.report --by road", "table a.report --totals", "export geojson a.report",
                 "compare a.report a.report", "plot time-space a.report", "plot queue a.report", "plot map a.report", "lint a.csv",
                 "travel-time a.report", "plot n-curves a.report", "plot delay a.report")
    return Case(words, by_tools=True)


def words_of_the_tools(draw, folder):
    from ctmtools.command_line import COMMANDS
    options = ("--every", "--jobs", "-o", "--vary", "--runs", "--seed", "--from", "--until", "--step", "--at", "--station", "--help")
    for name, content in REPORT.items():
        put(folder / name, content)
    put(folder / "a.toml", (HERE / "corridor.toml").read_bytes())
    files = ("a.toml", "a.report", "a.csv", "a.units.json", "none", ".", "/dev/null", "-")
    texts = [it.decode(errors="surrogateescape").replace("\0", "") for it in (*TEXTS, LONG[0])]

    def word():
        return draw.choice((draw.choice(options), draw.choice(files), draw.choice(VALUES), draw.choice(texts), "demand=0.5,1", "06:10"))
    return Case([draw.choice(sorted(COMMANDS)), draw.choice(files), *(word() for _ in range(draw.randint(0, 4)))], by_tools=True)


KINDS = {kind.__name__.replace("_", " "): kind for kind in (networks, saved_texts, plans, words, studies, sumo, osm, gmns, detectors,
                                                           reports, words_of_the_tools)}
PROGRAM = ""
REPORT: dict[str, bytes] = {}
FORMS: dict[str, bytes] = {}


def prepare(program, folder):
    """Makes what is changed of a right run: a report with what lies beside it, and files of detectors."""
    global PROGRAM
    PROGRAM = program
    shutil.copy(HERE / "corridor.toml", folder / "a.toml")
    subprocess.run([TOP / "ctm-tools", "run", "a.toml"], cwd=folder, stdout=subprocess.DEVNULL, check=True)
    REPORT.update({name: (folder / name).read_bytes() for name in ("a.report", "a.units.json", "a.csv")})
    spec = importlib.util.spec_from_file_location("detector_formats", TOP / "tools/tests/detector_formats.py")
    formats = importlib.util.module_from_spec(spec)
    spec.loader.exec_module(formats)
    FORMS.update({name: getattr(formats, name)().encode() for name in ("pems", "counts", "hourly", "wide")})
