"""Whether a list that a script of the gate writes is still that of what stands here."""

import difflib


def differing(path, text, script):
    """Prints each line in which the file differs from the text, and then how many do. Returns the status: 1 where any does."""
    had = path.read_text().splitlines() if path.is_file() else []
    wanted = text.splitlines()
    told = [line for line in difflib.unified_diff(had, wanted, lineterm="", n=0) if not line.startswith(("---", "+++", "@@"))]
    for line in told:
        print(f"{script}: {line}")
    if told:
        print(f"{script}: {path.name} differs from what stands here; {script} writes it anew, and git diff shows what changed")
    print(f"{len(told)} failed" if told else f"{len(wanted)} passed")
    return 1 if told else 0
