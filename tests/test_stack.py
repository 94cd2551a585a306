"""As much stack as docs/inside/PROVED.md asks for, and no more: each mode ends as it does with more, at the greatest sizes."""

import resource
import subprocess

import pytest
from conftest import BYTES, SECONDS, TOP, limit

STACK = 1 << 20  # bytes, as launcher/stack has it
CELLS, STEPS = 200_000, 3
MODES = ["run", "run --workers 16 --regions 512", "run --workers 16 --regions 512 --cut grown", "run --every 3 --workers 16 --regions 512",
         "watch --shots 4 --workers 16 --regions 512", "save --until 1 --workers 16 --regions 512", "recut --parts 3 --workers 16 --regions 512",
         "cut --regions 512", "check", "convert", "sample --size 10000 --workers 16 --regions 512"]


@pytest.fixture(scope="session")
def greatest():
    """As many cells as there may be, in a chain, a sixth of them with a limit and a speed."""
    names = [f"m{number}" for number in range(CELLS - 2)]
    records = ["ctm,3", f"steps,{STEPS}", "gate,on,5,9", *(f"road,{name},30,5,1,5,4" for name in names), "exit,off,5"]
    records += [f"link,{one},{other}" for one, other in zip(["on", *names], [*names, "off"])]
    records += [f"{kind},{name},0,2,{fields}" for name in names[::6] for kind, fields in (("limit", "3"), ("speed", "1,2"))]
    records += [f"demand,on,0,{STEPS},1"] * 100
    return "\n".join(records).encode() + b"\n"


def ended(words, given):
    def limited():
        limit(SECONDS, BYTES)
        resource.setrlimit(resource.RLIMIT_STACK, (STACK, STACK))
    done = subprocess.run(words, input=given, preexec_fn=limited, stdout=subprocess.PIPE, stderr=subprocess.PIPE, timeout=10 * SECONDS)
    return done.returncode, done.stderr, done.stdout


def test_the_stack_is_that_of_the_launcher():
    assert f"least_stack={STACK} " in (TOP / "launcher/stack").read_text()
    assert f"{STACK >> 10} KiB of stack" in (TOP / "docs/inside/PROVED.md").read_text()


@pytest.mark.parametrize("words", MODES)
def test_a_mode_ends_well_at_the_greatest_sizes(program, greatest, words):
    status, err, text = ended([program, *words.split()], greatest)
    assert (status, err) == (0, b"") and text


def test_resume_and_choose_end_well_at_the_greatest_sizes(program, greatest):
    _, _, saved = ended([program, "save", "--until", "1", "--regions", "512"], greatest)
    assert ended([program, "resume", "--workers", "16"], saved)[:2] == (0, b"")
    assert ended([program, "choose"], greatest + b"==\n" * 16)[:2] == (0, b"")
