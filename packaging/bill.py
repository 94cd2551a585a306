"""The bill of materials of the packages, in SPDX: the programs with their checksums, what is linked into them, and what they and
the tools need where they are installed.
"""

import hashlib
import json
import re
from datetime import UTC, datetime
from typing import Any

from built import PROGRAMS, TOP, Built
from crates import Crates
from dependencies import dependencies

BILL = "ctm.spdx.json"
EXTRAS = ("browser", "calibration", "coordinates", "dask", "holidays", "parquet", "workbooks")
OWN = "SPDXRef-ctm"
Entry = dict[str, Any]


def bill_of(built: Built) -> str:
    """The text of the bill, the same for the same programs and commit."""
    linked = sorted({name for target in PROGRAMS for them in foreign(target).values() for name in them} | {"std"})
    own = package("ctm", built.version, declared="MIT OR Apache-2.0")
    packages = [(own, None), *((package(name, built.kit), "STATIC_LINK") for name in linked),
                (package("glibc", f">={least_glibc()}"), "DYNAMIC_LINK"), (package("python3", ">=3.11"), "DEPENDS_ON"),
                *((package(name, f">={least},<{past}"), "DEPENDS_ON") for name, (least, past) in dependencies().items()),
                *((package(name, f">={least},<{past}"), "OPTIONAL_DEPENDENCY_OF")
                  for extra in EXTRAS for name, (least, past) in dependencies(extra).items())]
    bill = {"spdxVersion": "SPDX-2.3", "dataLicense": "CC0-1.0", "SPDXID": "SPDXRef-DOCUMENT", "name": f"ctm-{built.version}",
            "documentNamespace": f"https://spdx.org/spdxdocs/ctm-{built.version}-{built.sources}",
            "creationInfo": {"created": f"{datetime.fromtimestamp(built.seconds, UTC):%Y-%m-%dT%H:%M:%SZ}",
                             "creators": ["Tool: tools/package"]},
            "packages": [it for it, _ in packages], "files": files(built),
            "relationships": [relation("SPDXRef-DOCUMENT", "DESCRIBES", OWN),
                              *(relation(OWN, "CONTAINS", it["SPDXID"]) for it in files(built)),
                              *(ordered(it["SPDXID"], sort) for it, sort in packages if sort)]}
    return json.dumps(bill, indent=1) + "\n"


def foreign(target: str) -> dict[str, list[str]]:
    """The libraries of the toolchain that each crate of a program uses."""
    crates = Crates(TOP, target)
    return {name: crates.foreign[name] for name in crates.names}


def files(built: Built) -> list[Entry]:
    """The programs with their checksums."""
    return [{"SPDXID": f"SPDXRef-{name.replace('_', '-')}", "fileName": f"./lib/ctm/{name}",
             "checksums": [{"algorithm": sort, "checksumValue": hashlib.new(sort.lower(), path.read_bytes()).hexdigest()}
                           for sort in ("SHA1", "SHA256")]}  # the first is SPDX's demand
            for name, path in zip(PROGRAMS, (built.program, built.waiting_program))]


def package(name: str, version: str, declared: str = "NOASSERTION") -> Entry:
    return {"SPDXID": f"SPDXRef-{name.replace('_', '-')}", "name": name, "versionInfo": version, "downloadLocation": "NOASSERTION",
            "filesAnalyzed": False, "licenseConcluded": "NOASSERTION", "licenseDeclared": declared, "copyrightText": "NOASSERTION"}


def ordered(other: str, sort: str) -> Entry:
    """A relation of this program to another, which of some sorts stands first."""
    return relation(other, sort, OWN) if sort.endswith("_OF") else relation(OWN, sort, other)


def relation(one: str, sort: str, other: str) -> Entry:
    return {"spdxElementId": one, "relationshipType": sort, "relatedSpdxElement": other}


def least_glibc() -> str:
    """The least version of the C library, as docs/INSTALL.md has it and a test holds against the programs."""
    found = re.search(r"the GNU C library alone, ([\d.]+) or newer", (TOP / "docs/INSTALL.md").read_text())
    assert found
    return found[1]
