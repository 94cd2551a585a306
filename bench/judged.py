"""What earlier runs of bench/mutate-tools found of changes: kept as it comes, so that a run that was ended goes on where it was.

A change that was noticed stays so while the test that noticed it stays, and all that this rests on; one that wasn't while the
same is so of the files of all tests that were run.
"""
import hashlib
import json

import reaching


class Judged:
    """The changes that were tried, each with whether it was noticed, in a file of one line each."""

    def __init__(self, path, tools):
        self.path, self.tools = path, tools
        lines = path.read_text().splitlines() if path.exists() else []
        self.kept = {told["change"]: told for told in map(json.loads, lines)}

    def of(self, mutant, tests):
        """Whether a change is noticed by these tests, where that is known, else None."""
        told = self.kept.get(_change(mutant))
        if told is None or told["rests_on"] != self._rests_on(tests, told["by"]):
            return None
        return told["noticed"]

    def keep(self, mutant, tests, noticed, by):
        """Keeps whether these tests noticed a change, and by which; that is empty where none of them began."""
        by = by if noticed else ""
        told = {"change": _change(mutant), "key": mutant.key, "noticed": noticed, "by": by,
                "rests_on": self._rests_on(tests, by)}
        with self.path.open("a") as file:
            file.write(f"{json.dumps(told)}\n")

    def _rests_on(self, tests, by):
        """What changes where the tests, or the one that noticed, or what they rest on changes."""
        if by:
            file, name = by.split("::")[:2]
            if not (self.tools / file).exists():
                return ""
            return reaching.key_of(self.tools, file.removeprefix("tests/"), name.partition("[")[0])[:16]
        files = sorted({name.split("::")[0].removeprefix("tests/") for name in tests})
        return _digest(*sorted(tests), *(reaching.key_of(self.tools, file) for file in files))


def _change(mutant):
    return _digest(mutant.file, mutant.text)


def _digest(*texts):
    return hashlib.sha256("\0".join(texts).encode()).hexdigest()[:16]
