"""What is installed of a wheel where the packages that it needs aren't there."""

import subprocess
import sys
import tomllib

import pytest

from .examples import TOOLS


@pytest.mark.parametrize("begun", ["-m", "entry"])
def test_a_wheel_without_its_packages_says_so_in_a_line(begun):
    entry = tomllib.loads((TOOLS / "pyproject.toml").read_text())["project"]["scripts"]["ctm-tools"]
    module, function = entry.split(":")
    calls = {"entry": f"from {module} import {function}; {function}()",
             "-m": "import runpy; runpy.run_module('ctmtools', run_name='__main__')"}
    # Without its site Python has no packages but its own.
    done = subprocess.run([sys.executable, "-E", "-s", "-S", "-c", calls[begun]], cwd=TOOLS, capture_output=True, text=True, timeout=60)
    line, = done.stderr.splitlines()
    assert done.returncode == 2 and line.startswith("ctm-tools: the Python package ") and " is missing: pip install " in line
