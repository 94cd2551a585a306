"""The checksums of the packages, and whether those that lie in a folder are as they were made."""

import gzip
import hashlib
import io
import json
import re
import tarfile
import zipfile
import zlib
from collections.abc import Iterator
from pathlib import Path

from standard_tool import call_for_bytes

SUMS = "SHA256SUMS"
LINE = re.compile(r"([0-9a-f]{64})  ([\w.-]+)")
# What reading a package raises that may hold anything.
UNREADABLE = (EOFError, ValueError, TypeError, LookupError, AttributeError, RecursionError, gzip.BadGzipFile, tarfile.TarError,
              zipfile.BadZipFile, zlib.error)
KINDS = (".deb", ".tar.gz", ".whl", ".spdx.json")


def sums_of(paths: list[Path]) -> str:
    """The checksums of files, a line each, as sha256sum has them."""
    return "".join(f"{hashlib.sha256(path.read_bytes()).hexdigest()}  {path.name}\n" for path in paths)


def differences(folder: Path) -> list[str]:
    """What differs from the checksums, or in a package from its bill, a line each."""
    sums = {name: digest for digest, name in LINE.findall((folder / SUMS).read_text("utf-8", "replace"))}
    wrong = [f"{folder / SUMS} names no {kind}" for kind in KINDS if not any(name.endswith(kind) for name in sums)]
    for name, digest in sums.items():
        if not (folder / name).is_file():
            wrong.append(f"{folder / name} is missing")
        elif hashlib.sha256((folder / name).read_bytes()).hexdigest() != digest:
            wrong.append(f"{folder / name} isn't what was made: its checksum differs")
    return wrong or [line for name in sums if not name.endswith(".json") for line in differences_inside(folder / name)]


def differences_inside(package: Path) -> Iterator[str]:
    """What of a package differs from the bill in it, or that it can't be read."""
    try:
        yield from _differing(package)
    except UNREADABLE:
        yield f"{package}: can't be read as a package with its bill of materials"


def _differing(package: Path) -> Iterator[str]:
    found = {name.partition("lib/ctm/")[2]: content for name, content in inside(package) if "lib/ctm/" in name}
    bill = json.loads(found.get("ctm.spdx.json", "{}"))
    told = {it["fileName"].removeprefix("./lib/ctm/"): it["checksums"][1]["checksumValue"] for it in bill.get("files", [])}
    if not told:
        yield f"{package}: has no bill of materials"
    for name, digest in told.items():
        if hashlib.sha256(found.get(name, b"")).hexdigest() != digest:
            yield f"{package}: {name} isn't the program of its bill"


def inside(package: Path) -> Iterator[tuple[str, bytes]]:
    """The names of the files of a package, and what they have."""
    if package.suffix == ".whl":
        with zipfile.ZipFile(package) as files:
            yield from ((name, files.read(name)) for name in files.namelist())
        return
    source = io.BytesIO(call_for_bytes("dpkg-deb", "--fsys-tarfile", package)) if package.suffix == ".deb" else package.open("rb")
    with source, tarfile.open(fileobj=source) as files:
        for member in files:
            content = files.extractfile(member) if member.isfile() else None
            if content:
                yield member.name, content.read()
