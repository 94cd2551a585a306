"""The package for Debian: the programs, the tools, manual pages, completions, documents also for a browser, and examples."""

import os
from email.utils import formatdate
from pathlib import Path

from built import PROGRAMS, TOP, Built
from dependencies import dependencies
from standard_tool import call
from tree import copy, lay_documents, lay_programs, lay_tools, put

DEBIAN = TOP / "packaging/debian"
PYTHON = "lib/python3/dist-packages"
MACHINE = "amd64"
EPOCHS = {"numpy": "1:"}  # which Debian has before the version of a package
MAPS = ("sumo (>= 1.15)", "osmium-tool (>= 1.14)")  # which make networks of maps
PAGES = "node-d3 (>= 5)"


def make_deb(built: Built, work: Path) -> Path:
    """Makes the package in a folder of its own, and gives its path."""
    root = work / "root"
    usr = root / "usr"
    lay_programs(usr, built)
    lay_tools(usr, PYTHON, DEBIAN / "ctm-tools")
    lay_documents(usr)
    lay_site(usr)
    lay_as_debian_has_it(usr, built)
    lay_control(root, built, work)
    for path in [root, *root.rglob("*")]:
        os.utime(path, (built.seconds, built.seconds), follow_symlinks=False)
    made = work / f"ctm_{built.version}_{MACHINE}.deb"
    call("dpkg-deb", "--root-owner-group", "--uniform-compression", "-Zxz", "--threads-max=1", "--build", root, made,
         seconds=built.seconds)
    return made


def lay_site(usr: Path) -> None:
    """Both books for a browser, as docs/site makes them, and what has Debian's readers of documents find them."""
    call(TOP / "docs/site", usr / "share/doc/ctm/html")
    copy(DEBIAN / "doc-base", usr / "share/doc-base/ctm")


def lay_as_debian_has_it(usr: Path, built: Built) -> None:
    """Puts files where Debian has them, and as it has them."""
    documents = usr / "share/doc/ctm"
    copy(DEBIAN / "copyright", documents / "copyright")
    os.symlink("../../../lib/ctm/BUILD", documents / "BUILD")
    put(documents / "changelog", (DEBIAN / "changelog.in").read_text().format(
        version=built.version, date=formatdate(built.seconds)))
    call("gzip", "-9n", documents / "changelog", *(usr / "share/man/man1").iterdir())
    completions = usr / "share/zsh/vendor-completions"
    (usr / "share/zsh/site-functions").rename(completions)
    copy(DEBIAN / "overrides", usr / "share/lintian/overrides/ctm")


def lay_control(root: Path, built: Built, work: Path) -> None:
    """What the package says of itself, and what is done as it comes and goes."""
    control = root / "DEBIAN"
    sums = call("find", "usr", "-type", "f", "-exec", "md5sum", "{}", "+", cwd=root).splitlines(keepends=True)
    put(control / "md5sums", "".join(sorted(sums, key=lambda line: line.split()[1])))
    for name in ("postinst", "prerm"):
        copy(DEBIAN / name, control / name, 0o755)
    size = sum(-(-path.stat().st_size // 1024) for path in root.rglob("*") if path.is_file())
    needed = [libraries(root, work), "python3 (>= 3.11)", *as_debian_has_them(dependencies())]
    suggested = [*as_debian_has_them(*map(dependencies, ("dask", "coordinates", "holidays"))), *MAPS]
    put(control / "control", (DEBIAN / "control.in").read_text().format(
        version=built.version, machine=MACHINE, size=size, needed=", ".join(needed),
        recommended=", ".join([*as_debian_has_them(*map(dependencies, ("calibration", "workbooks", "browser"))), PAGES]), suggested=", ".join(suggested)))


def libraries(root: Path, work: Path) -> str:
    """The packages of the libraries that the programs need."""
    put(work / "debian/control", "Source: ctm\n\nPackage: ctm\nArchitecture: any\n")
    told = call("dpkg-shlibdeps", "-O", *(f"-e{root / 'usr/lib/ctm' / name}" for name in PROGRAMS), cwd=work)
    return told.strip().removeprefix("shlibs:Depends=")


def as_debian_has_them(*needed: dict[str, tuple[str, str]]) -> list[str]:
    """These packages by Debian's names, from their least version to below the next great one."""
    return [f"python3-{name} ({sign} {EPOCHS.get(name, '')}{version})" for them in needed for name, (least, past) in them.items()
            for sign, version in ((">=", least), ("<<", f"{past}~"))]
