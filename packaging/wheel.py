"""The wheel: the Python package ctmtools with the programs and the examples, so that one `pip install` gives ctm and ctm-tools."""

import os
import shutil
import sys
from pathlib import Path

from built import TOP, Built
from standard_tool import call
from tree import EXAMPLES, LICENSES, lay_documents, lay_files, lay_package, lay_programs, lay_tools_pages

PLATFORM = "linux_x86_64"
SCRIPTS = ("bin/ctm", "bin/ctm-wait")


def make_wheel(built: Built, work: Path) -> Path:
    """Makes the wheel in a folder of its own, and gives its path."""
    sources = work / "sources"
    lay_package(sources)
    lay_programs(sources, built)
    lay_tools_pages(sources)
    lay_documents(sources, EXAMPLES)
    lay_files(sources, LICENSES)  # which setuptools puts beside what the wheel says of itself
    project = (TOP / "tools/pyproject.toml").read_text() + with_programs(sources)
    (sources / "pyproject.toml").write_text(project)
    (sources / "setup.cfg").write_text(f"[bdist_wheel]\nplat_name = {PLATFORM}\n")
    set_times(sources, built.seconds)
    makes = f"from setuptools.build_meta import build_wheel; build_wheel({str(work)!r})"
    call(sys.executable, "-I", "-B", "-c", makes, cwd=sources, seconds=built.seconds)
    shutil.rmtree(sources)
    return next(work.glob("*.whl"))


def with_programs(sources: Path) -> str:
    """What the project has beside the Python package: the commands, and files that stand under the prefix."""
    folders: dict[str, list[str]] = {}
    for path in sorted(it for top in ("lib", "share") for it in (sources / top).rglob("*") if it.is_file()):
        place = path.relative_to(sources)
        folders.setdefault(str(place.parent), []).append(str(place))
    lines = [f'"{folder}" = {paths}' for folder, paths in folders.items()]
    return "\n".join(["", "[tool.setuptools]", f"script-files = {list(SCRIPTS)}", "", "[tool.setuptools.data-files]",
                      *lines, ""])


def set_times(folder: Path, seconds: int) -> None:
    """Sets the times of all files, which a wheel keeps."""
    for path in folder.rglob("*"):
        os.utime(path, (seconds, seconds))
