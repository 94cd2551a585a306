"""`python3 -I tools WORDS`, which ./ctm-tools calls. Isolated, Python takes modules from this folder and from its own alone."""

import os
import sys
from importlib.util import find_spec

PACKAGES = ("click", "pandas", "matplotlib", "networkx", "tabulate", "tomlkit")
HERE = os.path.dirname(os.path.abspath(__file__))


def become_another():
    """Goes on as a Python that has the packages. find-python stands here, and beside this folder where it is installed."""
    import subprocess

    finder = next(path for path in (os.path.join(HERE, "find-python"), os.path.join(os.path.dirname(HERE), "find-python"))
                  if os.path.exists(path))
    found = subprocess.run([finder], stdin=subprocess.DEVNULL, stdout=subprocess.PIPE)
    if found.returncode:
        sys.exit(found.returncode)
    python = os.fsdecode(found.stdout.strip())
    os.execv(python, [python, "-I", HERE, *sys.argv[1:]])


if sys.version_info < (3, 11) or not all(map(find_spec, PACKAGES)):
    become_another()

from ctmtools.__main__ import begin  # noqa: E402: an older Python couldn't read it

begin()
