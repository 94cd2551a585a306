"""The crates of the repository: which of them a crate stands on, what their proofs cost, and whether they are built."""

import csv
import hashlib
import subprocess
from pathlib import Path

PARTS = ("src", "specs", "proofs")
# The programs, and the command that has each built.
PROGRAMS = {"ctm_program": "./ctm", "ctm_wait": "./ctm-wait"}
SECONDS_A_LINE = 0.06  # of a crate that the file of check times doesn't have


class Crates:
    """The crates that a target stands on and itself, each behind those that it uses."""

    def __init__(self, top, target):
        self.top = Path(top)
        self.target = target
        self.lines = {}
        listed = {}
        for line in (self.top / "crates.txt").read_text().splitlines():
            head, colon, below = line.partition("#")[0].partition(":")
            if colon:
                self.lines[head.split()[0]] = line
                listed[head.split()[0]] = below.split()
        self.uses = {name: [it for it in below if it in listed] for name, below in listed.items()}
        self.foreign = {name: [it for it in below if it not in listed] for name, below in listed.items()}
        self.known = {}
        self.names = [*self.below(target), target]

    def below(self, name):
        """All crates that this one stands on, each behind those that it uses."""
        if name not in self.known:
            found = {}
            for used in self.uses[name]:
                found.update(dict.fromkeys([*self.below(used), used]))
            self.known[name] = list(found)
        return self.known[name]

    @property
    def program(self):
        return self.folder(self.target) / "out" / self.target

    def folder(self, name):
        return self.top / "crates" / name

    def library(self, name):
        """Where a proved crate's library lies, apart from that of `rt lib`, which has the proofs too."""
        return self.folder(name) / "out" / "proved" / f"{name}.rlib"

    def costs(self):
        """The seconds that one processor takes for each crate, by the file of check times, or by its lines."""
        path = self.top / "launcher/check_times.csv"
        told = proof_times(path) if path.is_file() else {}
        return {name: told.get(name) or 1 + SECONDS_A_LINE * self.count_lines(name) for name in self.names}

    def count_lines(self, name):
        return sum(path.read_bytes().count(b"\n") for path in self.sources(name))

    def sources(self, name):
        return sorted(path for part in PARTS for path in (self.folder(name) / part).rglob("*") if path.is_file())

    def sums(self, own_sums):
        """For each crate a checksum of all that its proof stands on."""
        toolchain = subprocess.run(["rt", "version"], stdout=subprocess.PIPE, stderr=subprocess.DEVNULL).stdout
        sums = {}
        for name in self.names:
            below = "".join(sums[used] for used in self.uses[name])
            sums[name] = hashlib.sha256(toolchain + own_sums[name].encode() + below.encode()).hexdigest()
        return sums

    def own_sum(self, name):
        """A checksum of a crate's line and sources."""
        made = hashlib.sha256(self.lines[name].encode())
        for path in self.sources(name):
            made.update(f"\n{path.relative_to(self.top)}\n".encode() + path.read_bytes())
        return made.hexdigest()

    def is_made(self, name, proved):
        """Whether what was made of a crate when it had this checksum still lies there."""
        record = self.record(name)
        return record.is_file() and record.read_text() == f"{proved} {self.made(name)}"

    def keep_record(self, name, proved):
        self.record(name).write_text(f"{proved} {self.made(name)}")

    def made(self, name):
        """What a record has of what a crate's proof made: of a program its checksum, of a library whether it is there."""
        if name != self.target:
            return self.library(name).is_dir()
        return self.program.is_file() and hashlib.sha256(self.program.read_bytes()).hexdigest()

    def record(self, name):
        """The file that has checksums of what the crate was last proved of, and of what was made."""
        return self.library(name).parent / "sums"


def proof_times(path):
    """The seconds of each crate's own proof, from the file of check times."""
    with open(path, newline="") as file:
        return {row["crate"]: int(row["proof"]) for row in csv.DictReader(file) if row["proof"].isdigit()}
