"""Each mode at the greatest values of docs/FORMAT.md that it can have together: it succeeds, where a program that gives up by
"no memory" would be proved too. The network is a ring of roads in which each step takes a vehicle into each road and one out
of it, so that all rows are known.
"""

import itertools
import string

import pytest
from conftest import hold
from saved import saved_text
from test_limits import MOST_BYTES

CELLS = 200_000
STEPS = 3
WATCHED = 62_500  # cells, which 64 shots may show
SHOTS = 64
REGIONS = 512
ALL = ["--regions", "512", "--workers", "16"]
NAMES = ["".join(name) for name in itertools.islice(itertools.product(string.ascii_lowercase, repeat=4), CELLS)]


def ring(cells):
    """Roads that hold one vehicle of two, and lead one into the next and the last into the first."""
    roads = [f"road,{name},2,1,1,1,1" for name in NAMES[:cells]]
    links = [f"link,{name},{NAMES[(i + 1) % cells]}" for i, name in enumerate(NAMES[:cells])]
    return "\n".join(["ctm,3", f"steps,{STEPS}", *roads, *links, ""]).encode()


def of_most_bytes(network):
    """The network with a comment behind it."""
    return network + b"#" * (MOST_BYTES - len(network) - 1) + b"\n"


def report(cells, recorded=()):
    """Their report, with these steps recorded."""
    course = "".join(f"at,{t},{name},1.000000,{t}.000000\n" for t in recorded for name in NAMES[:cells])
    last = "".join(f"cell,{name},1.000000,{STEPS}.000000,{STEPS}.000000,0.000000\n" for name in NAMES[:cells])
    return f"report,{STEPS},{cells}\n{course}{last}total,{cells}.000000,0.000000,0.000000,0.000000\n".encode()


RING = ring(CELLS)
GREATEST = of_most_bytes(RING)
REPORT = report(CELLS)


def region_of(cell):
    """In the even cutting."""
    return cell * REGIONS // CELLS


def saved_at(step):
    """The saved run of the greatest network, all of whose regions stand at this step."""
    parts = 1_000_000
    rows = [(region_of(i), parts, step * parts, step * parts, 0, parts) for i in range(CELLS)]
    return saved_text([step] * REGIONS, rows, GREATEST)


@pytest.mark.parametrize("words, text", [
    (["run", *ALL, "--every", "100000"], report(CELLS, recorded=[0, STEPS])),
    (["run", *ALL, "--cut", "grown"], REPORT),
    (["save", *ALL, "--until", "100000"], saved_at(STEPS)),
    (["recut", *ALL, "--parts", "64"], REPORT),
    (["check"], b"network3,%d,%d,%d,0,0,0,0,0\n" % (CELLS, CELLS, STEPS)),
    (["convert"], RING),
], ids=lambda value: "-".join(value) if isinstance(value, list) else "")
def test_a_mode_at_its_greatest_values(words, text, run):
    hold((0, text, b""), run(words, input=GREATEST))


def test_a_watch_with_the_most_shots(run):
    status, text, err = run(["watch", *ALL, "--shots", str(SHOTS)], input=of_most_bytes(ring(WATCHED)))
    assert (status, err) == (0, b"")
    assert text.endswith(report(WATCHED))
    assert text.count(b"\nshot,") + text.startswith(b"shot,") == SHOTS


def test_the_greatest_made_network(run):
    status, text, err = run(["sample", "--size", "10000", "--seed", "999999999", *ALL])
    assert (status, err) == (0, b"")
    assert text.startswith(b"sample,10000,999999999,")


def test_a_saved_run_of_the_most_cells_is_gone_on_with(run):
    hold((0, REPORT, b""), run(["resume", "--workers", "16"], input=saved_at(1)))


def test_the_most_plans_in_the_most_bytes(run):
    """Comments, so that each plan is the base, and the first of them is chosen."""
    plans = 16
    plan = b"==\n#" + b"#" * ((MOST_BYTES - len(RING)) // plans - 5) + b"\n"
    text = b"".join(b"plan,%d,0.000000\n" % i for i in range(plans)) + b"choice,0\n"
    hold((0, text, b""), run(["choose"], input=RING + plans * plan))


def test_the_most_regions_grown_of_the_most_cells(run):
    """Each of the regions lies between two cut links, as in the even cutting, and is a run of the order of the file."""
    status, text, err = run(["cut", "--regions", str(REGIONS)], input=GREATEST)
    assert (status, err) == (0, b"")
    head, *cells = text.decode().splitlines()
    assert head == f"cut,{REGIONS},{REGIONS},{REGIONS}"
    names, regions = zip(*(cell.removeprefix("cell,").split(",") for cell in cells))
    assert list(names) == NAMES
    runs = [(int(region), len(list(run))) for region, run in itertools.groupby(regions)]
    assert [region for region, _ in runs] == list(range(REGIONS))
    assert {size for _, size in runs} <= {CELLS // REGIONS, -(-CELLS // REGIONS)}


def test_the_most_workers_that_wait(wait):
    hold((0, REPORT, b""), wait(["16"], input=GREATEST))
