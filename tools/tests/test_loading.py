"""What commands load before they do anything: packages that take long come when what they are for is asked."""

import subprocess
import sys

import pytest

from .examples import EXAMPLES, TOOLS

HEAVY = ["numpy", "pandas", "networkx", "matplotlib", "scipy", "tomlkit"]


@pytest.mark.parametrize("words, loaded", [
    (["--help"], []), (["run", EXAMPLES / "bottleneck.toml", "-o", "b.report"], ["numpy"]),
    (["build", EXAMPLES / "bottleneck.toml", "-o", "b.csv"], ["numpy"]), (["lint", EXAMPLES / "interchange.csv"], ["numpy"]),
    (["table", EXAMPLES / "bottleneck.report", "--totals"], ["numpy", "pandas"])])
def test_a_command_loads_what_it_needs(recording_program, tmp_path, words, loaded):
    ended = subprocess.run([sys.executable, "-I", "-X", "importtime", TOOLS, *words], cwd=tmp_path, capture_output=True, text=True)
    names = {line.split("|")[-1].strip() for line in ended.stderr.splitlines() if line.startswith("import time:")}
    assert ended.returncode == 0 and [name for name in HEAVY if name in names] == loaded
