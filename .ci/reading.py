"""How much there is to read of what the theorem of `ctm` means, mode by mode.

A clause, and each definition, leads to the definitions that it names: from `use Rattle.CRATE.specs.NAME.{..}` to the file
crates/CRATE/specs/NAME.antt, or where CRATE/specs/Lib.antt passes NAME on, to the file that it passes on. What
`specs.declared` names is a type of the crate's own code, and is counted beside the definitions, with the traits that the call
is generic over. `Rattle.std` and the other crates of the toolchain are relied on.
"""

from pathlib import Path
from typing import NamedTuple

from definitions import Definitions, Imports
from imports import Paths
from promises import Source
from tokens import antt_tokens, rattle_tokens

# In the order in which they are read: each mode with the crate and the file where it begins.
MODES = [("run", "run_modes", "RunMode"), ("check", "workerless_modes", "CheckMode"),
         ("convert", "workerless_modes", "ConvertMode"), ("choose", "workerless_modes", "ChooseMode"),
         ("cut", "workerless_modes", "CutMode"), ("sample", "run_modes", "SampleMode"), ("watch", "run_modes", "WatchMode"),
         ("save", "saved_modes", "SaveMode"), ("resume", "saved_modes", "ResumeMode"), ("recut", "saved_modes", "RecutMode")]
CALL = Path("crates/ctm_call/src/call.rt")


TELLING = Path("crates/ctm_call/specs/Telling.antt")
# The crates of the toolchain whose definitions ours name, each with those that stand in it.
RELIED_ON = {"std": ("std", "std_alloc", "std_collections", "std_heap", "std_io", "core"), "csv": ("csv",), "clap": ("clap",)}


class Reading(NamedTuple):
    """What some definitions lead to: all of them, the types of our own code that they name, each as its crate, file and name, and
    of each crate of the toolchain the names that they have from it.
    """
    definitions: set
    types: set
    relied_on: dict

    @property
    def files(self):
        return {path for path, _ in self.definitions}

    def lines(self, top):
        """How many lines the files have."""
        return sum(len((Path(top) / path).read_text().splitlines()) for path in self.files)


def reading(definitions, found):
    """What these definitions lead to."""
    reached = definitions.reached(found)
    types, relied_on = set(), {name: set() for name in RELIED_ON}
    for path, name in reached:
        for _, module, there in definitions.module(path).imports.used(definitions.meant(path, name)):
            _, crate, *rest = module.split(".")
            if rest[:2] == ["specs", "declared"] and "TheConstants" not in rest:
                types.add((crate, *rest[2:4]))
            for library, crates in RELIED_ON.items():
                if crate in crates:
                    relied_on[library].add(there)
    return Reading(reached, {one for one in types if (definitions.top / "crates" / one[0]).is_dir()}, relied_on)


def modes(top):
    """For each mode its name, its first file, and how many definitions, types, files, lines of them, and files that no mode before
    it needs.
    """
    definitions, read = Definitions(top), set()
    for mode, crate, name in MODES:
        first = Path("crates", crate, "specs", f"{name}.antt")
        found = of_mode(definitions, mode, first)
        yield mode, first, len(found.definitions), len(found.types), len(found.files), found.lines(top), len(found.files - read)
        read |= found.files


def of_mode(definitions, mode, first):
    """What a mode rests on: its texts, `Is..Text`, why it has none, `.._refused`, and what its observer is told."""
    return reading(definitions, [(first, f"Is{mode.capitalize()}Text"), (first, f"{mode}_refused"), *told(definitions, mode)])


def told(definitions, mode):
    """The definitions that the line of a mode names of what the observer is told."""
    telling = definitions.module(TELLING)
    words = telling.definitions["IsToldBy"]
    begins = [at for at, word in enumerate(words) if word == "IsToldBy"] + [len(words)]
    for begin, end in zip(begins, begins[1:]):
        line = words[begin:end]
        if mode.capitalize() in line and "=" in line:
            yield from definitions.named(line[line.index("="):], telling.imports)


def whole(top):
    """What all clauses of `ctm` rest on, with all modes, and the traits of our own that it is generic over."""
    definitions, imports = Definitions(top), Imports()
    text = (Path(top) / CALL).read_text()
    source = Source(text, ())
    for line in source.uses:
        imports.take(token.text for token in antt_tokens(line))
    words = [token.text for promise in source.promises for token in antt_tokens(promise.antt)]
    return reading(definitions, definitions.named(words, imports)), traits(text)


def traits(text):
    """The traits of our own crates that a file imports and that bound a parameter of its call."""
    paths = Paths(rattle_tokens(text))
    head = text[text.index("pub fn"):]
    parameters = head[head.index("<") + 1:head.index(">(")]
    bounds = {name.strip() for one in parameters.split(",") for name in one.partition(":")[2].split("+")}
    return {name for name in bounds for path in paths.names.get(name, ()) if path.partition("::")[0] in paths.own}
