"""What stops a package or an installation: one line for the user."""

import sys
from typing import NoReturn


class Problem(Exception):
    """Why nothing was made."""


def reason(error: OSError) -> str:
    """What the system says of a fault, and of which file."""
    where = error.filename2 or error.filename  # of a copy the second is what is written
    told = (error.strerror or str(error)).lower()
    return f"{where}: {told}" if where else told


def fail(command: str, problem: object) -> NoReturn:
    """Ends with a line on standard error and status 2."""
    print(f"{command}: {' '.join(str(problem).split())}", file=sys.stderr)
    sys.exit(2)
