"""The tarball: the programs with their documents and examples, without the tools."""

import os
from pathlib import Path

from built import Built
from standard_tool import call
from tree import DOCUMENTS, LICENSES, lay_documents, lay_programs


def make_tarball(built: Built, work: Path) -> Path:
    """Makes the tarball in a folder of its own, and gives its path."""
    name = f"ctm-{built.version}-linux-x86_64"
    folder = work / name
    lay_programs(folder, built)
    lay_documents(folder, DOCUMENTS + LICENSES)
    os.symlink("lib/ctm/BUILD", folder / "BUILD")
    made = work / f"{name}.tar.gz"
    call("tar", "--sort=name", "--format=gnu", f"--mtime=@{built.seconds}", "--owner=root:0", "--group=root:0",
         "--use-compress-program=gzip -9n", "-cf", made, "-C", work, name)
    return made
