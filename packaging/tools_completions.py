"""Completions of ctm-tools for bash, zsh and fish: those of click, which ask ctm-tools itself."""

import sys
from pathlib import Path

from click.shell_completion import BashComplete, FishComplete, ZshComplete

sys.path.insert(0, str(Path(__file__).resolve().parents[1] / "tools"))
from ctmtools.command_line import PROGRAM, tools

ASKED_BY = "_CTM_TOOLS_COMPLETE"  # the variable by which click is asked
NOTE = "# Made by tools/documents of click's own completion."
SHELLS = {"bash": BashComplete, "zsh": ZshComplete, "fish": FishComplete}


def tools_completion(shell: str) -> str:
    """The file of a shell."""
    made = SHELLS[shell](tools, {}, PROGRAM, ASKED_BY)
    lines = (made.source_template % made.source_vars()).strip().splitlines()
    if shell == "zsh":
        # zsh finds the file by its name, and runs it at the first call: click's would only announce the function then.
        assert lines[0] == f"#compdef {PROGRAM}" and lines[-1] == f"compdef {made.func_name} {PROGRAM};"
        lines = [lines[0], NOTE, *lines[1:-1], made.func_name]
    else:
        lines.insert(0, NOTE)
    return "\n".join(lines) + "\n"
