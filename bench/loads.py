"""A load beside what is measured or tried."""

import contextlib
import os
import subprocess
import sys

# A load on one processor, which ends with the process that started it.
LOAD = """
import os
starter = os.getppid()
while os.getppid() == starter:
    for _ in range(1_000_000):
        pass
"""


@contextlib.contextmanager
def load_on_all_processors():
    loads = [subprocess.Popen([sys.executable, "-I", "-c", LOAD]) for _ in os.sched_getaffinity(0)]
    try:
        yield len(loads)
    finally:
        for load in loads:
            load.kill()
            load.wait()
