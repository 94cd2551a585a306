"""The packages, made of the program under test, unpacked into empty folders, and called there with no variable but PATH and
HOME. The other program is the one that CTM_WAIT_PROGRAM names, or the one that is built in the repository.
"""

import ast
import hashlib
import json
import os
import re
import resource
import shutil
import subprocess
import sys
import tomllib
import zipfile
from dataclasses import dataclass
from pathlib import Path

import pytest
from conftest import BYTES, TOP, hold
from worked import CORRIDOR, REPORT

sys.path[:0] = [str(TOP / "launcher"), str(TOP / "packaging")]
from word_table import read_table

TABLE = read_table()
EXAMPLES = sorted(path.stem for path in (TOP / "examples").glob("*.csv") if path.with_suffix(".report").is_file())
KINDS = ("deb", "tarball", "wheel")


@pytest.fixture(scope="session")
def programs(program):
    """The paths of both programs."""
    waiting = os.environ.get("CTM_WAIT_PROGRAM") or TOP / "crates/ctm_wait/out/ctm_wait"
    assert Path(waiting).is_file(), f"{waiting}: no ctm_wait is built there; CTM_WAIT_PROGRAM names another"
    return program, str(waiting)


def made_in(folder, programs):
    """The packages that tools/package makes in a folder, by their kinds."""
    ended = subprocess.run([TOP / "tools/package", "-o", folder.name, "--programs", *programs], cwd=folder.parent,
                           stdout=subprocess.PIPE, check=True, text=True)
    return dict(zip(KINDS, map(Path, ended.stdout.splitlines())))


@pytest.fixture(scope="session")
def packages(programs, tmp_path_factory):
    return made_in(tmp_path_factory.mktemp("packages"), programs)


@dataclass
class Unpacked:
    """What came of a package: the folder in which bin, lib and share stand, and calls of its commands from elsewhere."""

    prefix: Path
    home: Path

    def call(self, command, *words, given=b"", path="/usr/bin:/bin"):
        ended = subprocess.run([self.prefix / "bin" / command, *words], input=given, cwd=self.home,
                               env={"PATH": path, "HOME": str(self.home)}, stdout=subprocess.PIPE, stderr=subprocess.PIPE)
        return ended.returncode, ended.stdout, ended.stderr


@pytest.fixture(scope="session")
def unpacked(packages, tmp_path_factory):
    """Each package, unpacked or installed into an empty folder."""
    found = {}
    for kind, path in packages.items():
        folder, home = tmp_path_factory.mktemp(kind), tmp_path_factory.mktemp("home")
        if kind == "deb":
            subprocess.run(["dpkg-deb", "-x", path, folder], check=True)
            found[kind] = Unpacked(folder / "usr", home)
        elif kind == "tarball":
            subprocess.run(["tar", "-xf", path, "-C", folder, "--strip-components=1"], check=True)
            found[kind] = Unpacked(folder, home)
        else:
            python = subprocess.run([TOP / "tools/find-python"], stdout=subprocess.PIPE, check=True, text=True).stdout.strip()
            subprocess.run([python, "-m", "venv", "--system-site-packages", folder], check=True)
            subprocess.run([folder / "bin/pip", "install", "-q", "--no-index", path], check=True)
            found[kind] = Unpacked(folder, home)
    return found


def test_two_calls_make_the_same_bytes(packages, programs, tmp_path):
    folders = [next(iter(them.values())).parent for them in (packages, made_in(tmp_path, programs))]
    made = [{path.name: path.read_bytes() for path in folder.iterdir()} for folder in folders]
    assert made[0].keys() == made[1].keys() and len(made[0]) == len(KINDS) + 2
    assert [name for name in made[0] if made[0][name] != made[1][name]] == []


def sum_of_sources():
    """The checksum of what `sha256sum` says of the list of crates and of the files of the crates, in the order of their paths."""
    files = [path for path in (TOP / "crates").rglob("*") if (path.suffix in (".rt", ".antt") or path.name == "crates.txt") and
             "out" not in path.relative_to(TOP).parts]
    paths = sorted(str(path.relative_to(TOP)) for path in [TOP / "crates.txt", *files])
    lines = [f"{hashlib.sha256((TOP / path).read_bytes()).hexdigest()}  {path}\n" for path in paths]
    return hashlib.sha256("".join(lines).encode()).hexdigest()


@pytest.mark.parametrize("kind", KINDS)
def test_a_package_says_what_it_is_built_of(kind, unpacked, programs):
    lines = (unpacked[kind].prefix / "lib/ctm/BUILD").read_text().splitlines()
    told = dict(line.split(": ", 1) for line in lines[1:])
    commit = subprocess.run(["git", "rev-parse", "HEAD"], cwd=TOP, stdout=subprocess.PIPE, text=True).stdout.strip()
    assert told["commit"] == commit and lines[0].startswith(f"ctm {TABLE.version}, commit {commit[:8]} of ")
    for name, path in zip(("ctm_program", "ctm_wait"), programs):
        assert told[name] == "sha256 " + hashlib.sha256(Path(path).read_bytes()).hexdigest()
        assert (unpacked[kind].prefix / "lib/ctm" / name).read_bytes() == Path(path).read_bytes()
    assert told["sources"].startswith(f"sha256 {sum_of_sources()}, ")
    assert told["kit"] == subprocess.run(["rt", "version"], stdout=subprocess.PIPE, check=True, text=True).stdout.strip()
    line = f"git checkout {commit} && tools/package"
    assert told["reproduce"] in (f"{line}, where that builds these programs, which were handed to it", "no commit has these files")
    assert unpacked[kind].call("ctm", "--version") == (0, f"{lines[0]}\n".encode(), b"")


def test_the_programs_are_hardened_as_far_as_the_toolchain_can(programs):
    """Position-independent, bound as they start, with what the loader fills in write-protected, and no stack to be executed."""
    for program in programs:
        told = subprocess.run(["readelf", "-hldW", program], stdout=subprocess.PIPE, check=True, text=True).stdout
        assert re.search(r"Type: +DYN", told) and re.search(r"FLAGS\) +BIND_NOW", told) and re.search(r"Flags: NOW PIE", told)
        assert re.search(r"^ +GNU_RELRO ", told, re.MULTILINE)
        assert re.search(r"^ +GNU_STACK .* RW +", told, re.MULTILINE), "no E, by which it could be executed"


@pytest.mark.parametrize("kind", KINDS)
def test_the_examples_give_their_reports(kind, unpacked):
    assert len(EXAMPLES) >= 8
    for name in EXAMPLES:
        network, report = ((TOP / "examples" / f"{name}{suffix}").read_bytes() for suffix in (".csv", ".report"))
        hold((0, report, b""), unpacked[kind].call("ctm", "run", given=network))
    hold((0, report, b""), unpacked[kind].call("ctm-wait", "2", given=network))


@pytest.mark.parametrize("kind", KINDS)
def test_help_and_refused_words_have_their_lines(kind, unpacked):
    status, out, err = unpacked[kind].call("ctm", "--help")
    assert (status, err) == (0, b"") and out.startswith(b"usage: ctm MODE [OPTIONS] < FILE\n")
    assert all(f"\n  {mode.word} ".encode() in out and mode.says.encode() in out for mode in TABLE.modes.values())
    assert b"--try" not in out and b"--install" not in out
    page = re.search(rb"^(\S+) .*has all words", out, re.MULTILINE)[1].decode()
    assert page == ("docs/FORMAT.md" if kind == "wheel" else f"{unpacked[kind].prefix}/share/doc/ctm/docs/FORMAT.md")
    network = re.search(rb"^  ctm run < (\S+)$", out, re.MULTILINE)[1].decode()
    assert kind == "wheel" or Path(page).is_file() and Path(network).is_file()
    assert unpacked[kind].call("ctm", "run", "-h")[1] == unpacked[kind].call("ctm", "help")[1] == out
    hold((2, b"", b"ctm: words refused\nctm: --regions takes a whole number from 1 to 512 in at most 9 digits, or auto, and not "
          b"513; ctm --help shows the words\n"), unpacked[kind].call("ctm", "run", "--regions", "513"))
    hold((2, b"", b"ctm-wait: it takes one word, the number of workers from 1 to 16; nothing was run\n"),
         unpacked[kind].call("ctm-wait", "17"))
    assert unpacked[kind].call("ctm-wait", "--help")[1].startswith(b"usage: ctm-wait WORKERS < FILE\n")


@pytest.mark.parametrize("past", [False, True])
@pytest.mark.parametrize("end", [0, 1])
def test_ctm_wait_takes_as_many_workers_as_the_program(end, past, unpacked, programs):
    """The ends of the range in the table of words, and the numbers past them."""
    workers = str(int(TABLE.waiting.split("..")[end]) + (past and (-1, 1)[end]))
    ended = subprocess.run([programs[1], workers], input=CORRIDOR, stdout=subprocess.PIPE, stderr=subprocess.DEVNULL)
    status, out, _ = unpacked["deb"].call("ctm-wait", workers, given=CORRIDOR)
    assert (status, out) == (ended.returncode, ended.stdout) == ((2, b"") if past else (0, REPORT))


@pytest.mark.parametrize("kind", KINDS)
def test_ctm_needs_nothing_of_the_path(kind, unpacked, tmp_path):
    hold((0, REPORT, b""), unpacked[kind].call("ctm", "run", given=CORRIDOR, path="/nonexistent"))
    link = tmp_path / "ctm"
    link.symlink_to(unpacked[kind].prefix / "bin/ctm")
    ended = subprocess.run([link, "run"], input=CORRIDOR, env={"PATH": "/nonexistent", "HOME": "/"}, stdout=subprocess.PIPE)
    assert ended.stdout == REPORT, "called by a link from elsewhere"
    assert kind == "tarball" or unpacked[kind].call("ctm-tools", "--version", path="/nonexistent")[0] == 0


def test_ctm_costs_at_most_5_ms_over_the_program(unpacked, program):
    """Of processor time, of all that is started, the least of many calls, since others may be at work."""
    def seconds(command):
        before = resource.getrusage(resource.RUSAGE_CHILDREN)
        subprocess.run([command, "run", "--regions", "2"], input=CORRIDOR, stdout=subprocess.DEVNULL, check=True)
        after = resource.getrusage(resource.RUSAGE_CHILDREN)
        return after.ru_utime + after.ru_stime - before.ru_utime - before.ru_stime
    installed = unpacked["deb"].prefix / "bin/ctm"
    own, whole = seconds(program), seconds(installed)
    for _ in range(300):
        if whole - own <= 0.005:
            break
        own, whole = min(own, seconds(program)), min(whole, seconds(installed))
    assert whole - own <= 0.005


@pytest.mark.parametrize("kind", ["deb", "wheel"])
def test_the_tools_run_a_study_by_the_packaged_program(kind, unpacked):
    it = unpacked[kind]
    status, out, err = it.call("ctm-tools", "--version")
    assert (status, err) == (0, b"")
    assert out.decode() == f"ctm-tools {TABLE.version}, over {it.prefix}/lib/ctm/ctm_program, the packaged one\n"
    place = f"  Documents and examples are in {it.prefix}/share/doc/ctm\n"
    assert (place in it.call("ctm-tools", "--help")[1].decode()) == (kind == "deb"), "the wheel has none"
    shutil.rmtree(it.home / "own", ignore_errors=True)
    status, out, err = it.call("ctm-tools", "examples", "own")
    copied = {str(path.relative_to(it.home / "own")) for path in (it.home / "own").rglob("*") if path.is_file()}
    assert status == 0 and {f"examples/{name}" for name in copied} == {*tracked("examples")} - {"examples/check"}, err
    status, out, err = it.call("ctm-tools", "run", "own/bottleneck.toml")
    assert status == 0 and b"Delay     461.25 vehicle-hours" in out, err
    assert it.call("ctm-tools", "plot", "queue", "bottleneck.report")[0] == 0
    assert (it.home / "bottleneck-queue.png").read_bytes().startswith(b"\x89PNG")
    assert it.call("ctm-tools", "report", "bottleneck.report")[0] == 0
    built = (it.prefix / "lib/ctm/BUILD").read_text().splitlines()[0]
    assert f" by {built}." in (it.home / "bottleneck.html").read_text()


def test_the_first_commands_of_the_first_page_make_a_picture(unpacked, tmp_path):
    """By Debian's package, unpacked."""
    it = Unpacked(unpacked["deb"].prefix, tmp_path)
    blocks = re.findall(r"^```\n(.*?)^```", (it.prefix / "share/doc/ctm/README.md").read_text(), re.MULTILINE | re.DOTALL)
    block = next(block for block in blocks if "ctm-tools examples own" in block)
    lines = [line for line in block.splitlines() if not line.startswith("apt ")]
    asks = "set -e; PATH=$1:$PATH; " + "; ".join(lines)
    subprocess.run(["bash", "-c", asks, "bash", it.prefix / "bin"], cwd=tmp_path, check=True,
                   env={"PATH": "/usr/bin:/bin", "HOME": str(tmp_path)})
    assert (tmp_path / "bottleneck-time-space.png").read_bytes().startswith(b"\x89PNG")


@pytest.mark.parametrize("kind", KINDS)
def test_manual_pages_and_completions_stand_where_they_are_found(kind, unpacked):
    share = unpacked[kind].prefix / "share"
    pages = {path.name.removesuffix(".gz") for path in (share / "man/man1").iterdir()}
    assert pages == {"ctm.1", "ctm-wait.1"} | ({"ctm-tools.1"} if kind != "tarball" else set())
    zsh = "vendor-completions" if kind == "deb" else "site-functions"
    for command in ("ctm", "ctm-tools") if kind != "tarball" else ("ctm",):
        for path in (f"bash-completion/completions/{command}", f"zsh/{zsh}/_{command}", f"fish/vendor_completions.d/{command}.fish"):
            assert (share / path).is_file(), path


def test_the_tools_speak_of_ctm_as_installed(unpacked):
    page = (unpacked["wheel"].prefix / "share/man/man1/ctm-tools.1").read_text()
    assert "proved program ctm" in page and "./ctm" not in page


def tracked(*patterns):
    """The files of the repository that have these names."""
    told = subprocess.run(["git", "ls-files", "--", *patterns], cwd=TOP, stdout=subprocess.PIPE, check=True, text=True)
    return told.stdout.splitlines()


@pytest.mark.parametrize("kind", ["deb", "tarball"])
def test_all_documents_and_examples_are_in_the_packages(kind, unpacked):
    """But for what checks the examples in the repository."""
    documents = unpacked[kind].prefix / "share/doc/ctm"
    wanted = {*tracked("README.md", "CHANGELOG.md", "SECURITY.md", "docs/*.md", "docs/pictures", "docs/inside/pictures", "examples")} - {"examples/check"}
    if kind == "deb":
        wanted |= {*tracked("tools/README.md", "tools/docs")}
    else:
        wanted |= {*tracked("LICENSE-*")}
    own = {"BUILD", "copyright", "changelog.gz"} if kind == "deb" else set()
    found = [path.relative_to(documents) for path in documents.rglob("*") if path.is_file()]
    assert {str(path) for path in found if path.parts[0] != "html"} - own == wanted
    assert [path for path in wanted if (documents / path).read_bytes() != (TOP / path).read_bytes()] == []


def test_debian_s_package_has_both_books_for_a_browser(unpacked):
    """A page for each document, for each mode's part of the theorem and for the functions of Python, whose links lead to files
    beside it, and an index that Debian's doc-base names."""
    share = unpacked["deb"].prefix / "share"
    site = (share / "doc/ctm/html").resolve()
    documents = [*tracked("*.md"), "tools/docs/functions.md", *(f"docs/inside/theorem/{mode}.md" for mode in TABLE.modes)]
    assert {str(path.relative_to(site)) for path in site.rglob("*.html")} == {
        re.sub(r"(README)?\.md$", lambda end: "index.html" if end[1] else ".html", path) for path in documents}
    for page in site.rglob("*.html"):
        links = re.findall(r'(?:href|src)="([^"#]+)', page.read_text())
        elsewhere = [link for link in links if re.match(r"\w+:|//", link)]
        assert all((page.parent / link).resolve().is_relative_to(site) and (page.parent / link).exists()
                   for link in links if link not in elsewhere), page
        assert not re.search(r'src="(?:\w+:)?//', page.read_text()), f"{page} fetches something"
    assert '<code class="word">--regions</code>' in (site / "docs/FORMAT.html").read_text(), "an option may be broken at its dashes"
    index = re.search(r"^Index: /usr/(\S+)$", (share / "doc-base/ctm").read_text(), re.MULTILINE)[1]
    assert (share.parent / index).is_file()


@pytest.mark.parametrize("kind, folder", [("deb", "lib/python3/dist-packages"), ("wheel", "lib/python3.*/site-packages")])
def test_all_files_of_the_tools_are_in_the_packages(kind, folder, unpacked):
    found, = unpacked[kind].prefix.glob(f"{folder}/ctmtools")
    wanted = {path.removeprefix("tools/ctmtools/") for path in tracked("tools/ctmtools")}
    assert {str(path.relative_to(found)) for path in found.rglob("*") if path.is_file() and path.suffix != ".pyc"} == wanted
    assert [path for path in wanted if (found / path).read_bytes() != (TOP / "tools/ctmtools" / path).read_bytes()] == []


# What of the repository the documents lead to and packages haven't.
OF_THE_REPOSITORY = ("crates/", "bench/", "tools/tests/", "tools/setup", "tools/check", "tools/pictures", "tools/find-python",
                     "CONTRIBUTING.md", "launcher/")


@pytest.mark.parametrize("kind", ["deb", "tarball"])
def test_the_links_of_the_documents_lead_to_files_of_the_package_or_into_the_repository(kind, unpacked):
    documents = (unpacked[kind].prefix / "share/doc/ctm").resolve()
    for page in documents.rglob("*.md"):
        for link in re.findall(r"\]\(([^)#:\s]+)(?:#[^)]*)?\)", page.read_text()):
            leads = os.path.relpath((page.parent / link).resolve(), documents)
            if not leads.startswith(OF_THE_REPOSITORY + (("LICENSE-",) if kind == "deb" else ("tools",))):
                assert (documents / leads).exists(), f"{page}: {link}"
            else:
                assert (TOP / leads).exists(), f"{page}: {link}"


def test_each_package_has_its_licenses(unpacked):
    """Debian's copyright file has the text of the one, and names where that of the other stands on Debian."""
    copyright = (unpacked["deb"].prefix / "share/doc/ctm/copyright").read_text()
    permission = (TOP / "LICENSE-MIT").read_text().partition("Permission")[2].split()
    assert " ".join(permission) in " ".join(copyright.replace("\n .\n", "\n").split())
    assert "/usr/share/common-licenses/Apache-2.0" in copyright
    found, = unpacked["wheel"].prefix.glob("lib/python3.*/site-packages/ctmtools-*.dist-info")
    for folder in unpacked["tarball"].prefix / "share/doc/ctm", found:
        assert all((folder / name).read_bytes() == (TOP / name).read_bytes() for name in tracked("LICENSE-*"))


# What the tools import of others, and can't do without.
NEEDED = {"click", "matplotlib", "networkx", "numpy", "pandas", "tabulate", "tomlkit"}
# What a command or an option of theirs takes, and they tell where it is missing.
TAKEN = {"aiohttp", "distributed", "holidays", "openpyxl", "pyarrow", "pyproj", "scipy"}


def test_the_tools_import_no_other_packages_than_are_named():
    trees = [ast.parse((TOP / path).read_text()) for path in tracked("tools/ctmtools/*.py")]
    nodes = [node for tree in trees for node in ast.walk(tree)]
    names = {name.name for node in nodes if isinstance(node, ast.Import) for name in node.names} | \
        {node.module for node in nodes if isinstance(node, ast.ImportFrom) and not node.level}
    assert {name.partition(".")[0] for name in names} - sys.stdlib_module_names == NEEDED | TAKEN
    told = tomllib.loads((TOP / "tools/pyproject.toml").read_text())["project"]
    assert {*map(name_of, told["dependencies"])} == NEEDED
    extras = {name_of(line) for extra, lines in told["optional-dependencies"].items() if extra != "test" for line in lines}
    assert extras == TAKEN


def name_of(line):
    """The name in a requirement, which has the versions from which and up to which it is taken."""
    return re.fullmatch(r"([a-z]+)>=[\d.]+,<[\d.]+", line)[1]


def test_the_package_for_debian_names_what_it_needs_as_debian_does(packages):
    """By names of packages that tools/setup has installed."""
    told = subprocess.run(["dpkg-deb", "-f", packages["deb"]], stdout=subprocess.PIPE, text=True, check=True).stdout
    fields = dict(line.split(": ", 1) for line in told.splitlines() if re.match(r"[A-Z][\w-]*: ", line))
    assert fields["Package"] == "ctm" and fields["Version"] == TABLE.version and fields["Architecture"] == "amd64"
    bounds = {field: [re.fullmatch(r"(\S+) \((>=|<<) ([\w.:~]+)\)", it).groups() for it in fields[field].split(", ")]
              for field in ("Depends", "Recommends", "Suggests")}
    least = next(version for name, sign, version in bounds["Depends"] if name == "libc6" and sign == ">=")
    assert f"the GNU C library alone, {least} or newer" in (TOP / "docs/INSTALL.md").read_text()
    names = {field: {name for name, _, _ in them} for field, them in bounds.items()}
    of_trials = {"libgcc-s1"} if BYTES is None else set()  # what checks at run time need
    assert names["Depends"] == {"libc6", "python3", *(f"python3-{name}" for name in NEEDED), *of_trials}
    assert names["Recommends"] == {"python3-scipy", "python3-openpyxl", "python3-aiohttp", "node-d3"}
    assert names["Suggests"] == {"python3-distributed", "python3-pyproj", "python3-holidays", "sumo", "osmium-tool"}
    for them in bounds.values():
        for name in {name for name, _, _ in them if name.startswith("python3-")}:
            assert {sign for it, sign, _ in them if it == name} == {">=", "<<"}, f"{name} has no two bounds"
        for name, sign, version in them:
            own = subprocess.run(["dpkg-query", "-W", "-f", "${Version}", name], stdout=subprocess.PIPE, check=True, text=True).stdout
            subprocess.run(["dpkg", "--compare-versions", own, {">=": "ge", "<<": "lt"}[sign], version], check=True)
    everything = [name for them in names.values() for name in them - {"libc6"}]
    stands = subprocess.run(["dpkg-query", "-W", "-f", "${Package}: ${db:Status-Status}\n", *everything], stdout=subprocess.PIPE,
                            text=True).stdout
    assert {*stands.splitlines()} == {f"{name}: installed" for name in everything}


def bill_in(folder):
    return json.loads((folder / "lib/ctm/ctm.spdx.json").read_text())


@pytest.mark.parametrize("kind", KINDS)
def test_a_package_has_a_bill_of_what_it_is_made_of(kind, unpacked, packages, programs):
    """In SPDX 2.3, of which each element that is named is there, and the same beside the packages."""
    bill = bill_in(unpacked[kind].prefix)
    beside, = packages[kind].parent.glob("*.spdx.json")
    assert json.loads(beside.read_text()) == bill
    assert (bill["spdxVersion"], bill["dataLicense"], bill["SPDXID"]) == ("SPDX-2.3", "CC0-1.0", "SPDXRef-DOCUMENT")
    elements = [it["SPDXID"] for it in (bill, *bill["packages"], *bill["files"])]
    assert len(elements) == len({*elements}) and all(re.fullmatch(r"SPDXRef-[A-Za-z0-9.-]+", it) for it in elements)
    ends = {it[end] for it in bill["relationships"] for end in ("spdxElementId", "relatedSpdxElement")}
    assert ends == {*elements}
    sums = {it["fileName"]: {sum["algorithm"]: sum["checksumValue"] for sum in it["checksums"]} for it in bill["files"]}
    assert {name: them["SHA256"] for name, them in sums.items()} == {
        f"./lib/ctm/{name}": hashlib.sha256(Path(path).read_bytes()).hexdigest() for name, path in zip(("ctm_program", "ctm_wait"), programs)}


def test_the_bill_names_what_is_linked_and_what_is_needed(unpacked):
    named = {it["name"]: it["versionInfo"] for it in bill_in(unpacked["deb"].prefix)["packages"]}
    assert named["ctm"] == TABLE.version
    listed = [line.partition("#")[0].partition(":") for line in (TOP / "crates.txt").read_text().splitlines()]
    own = {head.split()[0] for head, colon, _ in listed if colon}
    linked = {name for _, _, below in listed for name in below.split()} - own | {"std"}
    kit = subprocess.run(["rt", "version"], stdout=subprocess.PIPE, check=True, text=True).stdout.strip()
    assert {name for name, version in named.items() if version == kit} == linked
    bounded = {name for name, version in named.items() if re.fullmatch(r">=[\d.]+,<[\d.]+", version)}
    assert bounded == NEEDED | TAKEN and {*named} == {"ctm", "glibc", "python3"} | linked | bounded


def verified(folder):
    """The status of tools/package --verify, and what it says of a folder."""
    ended = subprocess.run([TOP / "tools/package", "--verify", "-o", folder], capture_output=True, text=True)
    return ended.returncode, ended.stdout, ended.stderr.replace(f"{folder}/", "")


def test_packages_are_compared_with_their_checksums(packages, tmp_path):
    made = tmp_path / "made"
    shutil.copytree(packages["deb"].parent, made)
    assert verified(made) == (0, f"{made}/SHA256SUMS: the packages and their bill are as they were made\n", "")
    subprocess.run(["sha256sum", "-c", "--strict", "--quiet", "SHA256SUMS"], cwd=made, check=True)
    for path in made.iterdir():
        content = path.read_bytes()
        if path.name != "SHA256SUMS":
            path.write_bytes(content[:-1] + bytes([content[-1] ^ 1]))
            assert verified(made) == (1, "", f"tools/package: {path.name} isn't what was made: its checksum differs\n")
            path.unlink()
            assert verified(made) == (1, "", f"tools/package: {path.name} is missing\n")
        else:
            path.write_bytes(content[content.index(b"\n") + 1:])
            assert verified(made) == (1, "", "tools/package: SHA256SUMS names no .deb\n")
            path.unlink()
            assert verified(made) == (2, "", "tools/package: SHA256SUMS: no such file or directory\n")
        path.write_bytes(content)


def test_another_program_in_a_package_is_told_though_the_checksums_were_made_anew(packages, tmp_path):
    made = tmp_path / "made"
    shutil.copytree(packages["deb"].parent, made)
    tarball = made / packages["tarball"].name
    subprocess.run(["tar", "-xf", tarball, "-C", tmp_path], check=True)
    folder, = tmp_path.glob("ctm-*")
    (folder / "lib/ctm/ctm_program").write_text("another\n")
    subprocess.run(["tar", "-czf", tarball, "-C", tmp_path, folder.name], check=True)
    sums = subprocess.run(["sha256sum", *(path.name for path in made.iterdir() if path.name != "SHA256SUMS")], cwd=made,
                          stdout=subprocess.PIPE, check=True).stdout
    (made / "SHA256SUMS").write_bytes(sums)
    assert verified(made) == (1, "", f"tools/package: {tarball.name}: ctm_program isn't the program of its bill\n")


@pytest.mark.parametrize("content", [b"none", b"", b"\x1f\x8bnone", '{"files": [{"fileName": 3}]}', '{"files": 3}', "[]", "[" * 100_000],
                         ids=["text", "empty", "gzip", "number", "no list", "list", "deep"])
def test_what_is_no_package_is_told_though_its_checksum_fits(tmp_path, monkeypatch, content):
    monkeypatch.syspath_prepend(TOP / "packaging")
    from verifying import differences_inside
    for name in ("a.whl", "a.tar.gz"):
        if isinstance(content, bytes):
            (tmp_path / name).write_bytes(content)
        else:
            with zipfile.ZipFile(tmp_path / name, "w") as file:
                file.writestr("lib/ctm/ctm.spdx.json", content)
        assert list(differences_inside(tmp_path / name)) == [f"{tmp_path / name}: can't be read as a package with its bill of materials"]


def test_checksums_in_no_letters_are_told(tmp_path):
    (tmp_path / "SHA256SUMS").write_bytes(b"\xff\xfe")
    status, out, err = verified(tmp_path)
    assert (status, out) == (1, "") and err.splitlines()[0] == "tools/package: SHA256SUMS names no .deb"


def test_lintian_finds_no_error(packages):
    ended = subprocess.run(["lintian", "--no-cfg", "--allow-root", "--fail-on", "error,warning", packages["deb"]],
                           stdout=subprocess.PIPE, stderr=subprocess.STDOUT, text=True)
    assert ended.returncode == 0, ended.stdout


def test_without_a_program_nothing_is_made(tmp_path):
    ended = subprocess.run([TOP / "tools/package", "-o", tmp_path / "made", "--programs", tmp_path / "none", tmp_path / "none"],
                           stdout=subprocess.PIPE, stderr=subprocess.PIPE, text=True)
    assert (ended.returncode, ended.stdout) == (2, "")
    assert ended.stderr == f"tools/package: {tmp_path}/none: no such file or directory; nothing was made\n"
    assert not any((tmp_path / "made").iterdir())


def test_a_folder_that_cannot_be_written_to_is_told_in_one_line(programs):
    ended = subprocess.run([TOP / "tools/package", "-o", "/proc/packages", "--programs", *programs],
                           stdout=subprocess.PIPE, stderr=subprocess.PIPE, text=True)
    assert (ended.returncode, ended.stdout) == (2, "")
    assert ended.stderr == "tools/package: /proc/packages: no such file or directory; nothing was made\n"


MADE_WITH = ("bash", "python3", "git", "rt", "find", "sort", "xargs", "sha256sum", "gzip", "md5sum", "tar", "dpkg-deb")


@pytest.mark.parametrize("lacks, told", [
    ("sort", "the checksum of the sources takes find, sort, xargs and sha256sum of the path; nothing was made"),
    ("git", "packages are made of a commit, and git finds none here"),
    ("gzip", "gzip isn't on the path; tools/setup installs what packages are made with"),
    (None, "dpkg-shlibdeps isn't on the path; tools/setup installs what packages are made with"),
])
def test_a_path_that_lacks_a_tool_is_told_in_one_line(lacks, told, programs, tmp_path):
    (tmp_path / "lacking").mkdir()
    for command in MADE_WITH:
        if command != lacks:
            (tmp_path / "lacking" / command).symlink_to(shutil.which(command))
    ended = subprocess.run([TOP / "tools/package", "-o", tmp_path / "made", "--programs", *programs], text=True,
                           env={"PATH": str(tmp_path / "lacking"), "HOME": "/"}, stdout=subprocess.PIPE, stderr=subprocess.PIPE)
    assert (ended.returncode, ended.stdout, ended.stderr) == (2, "", f"tools/package: {told}\n")
    assert not (tmp_path / "made").exists() or not any((tmp_path / "made").iterdir())


def test_a_full_disk_is_told_in_one_line_and_nothing_is_left(programs, tmp_path):
    """On a file system of 1 MiB, in a name space of its own where this isn't root."""
    disk = tmp_path / "disk"
    disk.mkdir()
    fills = (f"mount -t tmpfs -o size=1m tmpfs {disk} && "
             f"{{ {TOP}/tools/package -o {disk}/made --programs {' '.join(programs)}; echo $?; ls -A {disk}/made; }}")
    apart = ["unshare", "-m"] if os.getuid() == 0 else ["unshare", "-rm"]
    ended = subprocess.run([*apart, "bash", "-c", fills], stdout=subprocess.PIPE, stderr=subprocess.PIPE, text=True)
    assert ended.stdout == "2\n"
    assert re.fullmatch(r"tools/package: .*no space left on device.*\n", ended.stderr, re.IGNORECASE)


def test_the_documents_name_the_packages_that_are_made(packages):
    for page in ("README.md", "docs/INSTALL.md"):
        assert all(path.name in (TOP / page).read_text() for path in packages.values())


def test_the_versions_are_one():
    """The program's, which the table of words has, and the tools'."""
    init = (TOP / "tools/ctmtools/__init__.py").read_text()
    assert re.search(r'^__version__ = "([^"]+)"', init, re.MULTILINE)[1] == TABLE.version


# What the shells offer, by the completions that stand in the packages

def bash_offers(words, it):
    asks = '. "$1"; shift; COMP_WORDS=("$@") COMP_CWORD=$(($# - 1)); "$function" "$1"; printf "%s\\n" "${COMPREPLY[@]}"'
    function = "_ctm" if words[0] == "ctm" else "_ctm_tools_completion"
    return told_by(it, "bash", "-c", f"function={function}; {asks}", "bash",
                   it.prefix / f"share/bash-completion/completions/{words[0]}", *words)


def fish_offers(words, it):
    completion = it.prefix / f"share/fish/vendor_completions.d/{words[0]}.fish"
    told = told_by(it, "fish", "-N", "-c", f"source {completion}; complete -C '{' '.join(words)}'")
    return [line.split("\t")[0] for line in told]


def zsh_offers(words, it):
    """Of what the function hands to those of zsh, which show it: for ctm the words and descriptions of all that may stand there."""
    folder = next(it.prefix.glob(f"share/zsh/*/_{words[0]}")).parent
    stubs = ('_describe() { [[ $1 != -V ]] || shift; local -a them=("${(@P)2}"); print -l -- "${them[@]%%:*}" }; '
             'compadd() { print -l -- "${(@P)@[-1]}" }; '
             '_arguments() { local it; for it in "${@[2,-2]}"; do print -r -- "${it#\\(*\\)}"; done; '
             '[[ -n $modes ]] && _describe mode modes }')
    asks = f'{stubs}; fpath=("$1" $fpath); shift; autoload -Uz _{words[0]}; words=("$@"); CURRENT=$#; _{words[0]}'
    told = told_by(it, "zsh", "-f", "-c", asks, "zsh", folder, *words)
    options = {name: values for line in told for name, values in re.findall(r"^(--?\w+)=?\[[^]]*\](?::\w+:\((.*)\))?$", line)}
    if words[-2] in options:
        return options[words[-2]].split()
    return [it for it in [*options, *told] if it.startswith(words[-1]) and not it.endswith((")", "]"))]


def told_by(it, *command):
    return subprocess.run(command, stdout=subprocess.PIPE, check=True, text=True, cwd=it.home,
                          env={"PATH": f"{it.prefix}/bin:/usr/bin:/bin", "HOME": str(it.home)}).stdout.splitlines()


SHELLS = {"bash": bash_offers, "fish": fish_offers, "zsh": zsh_offers}
OWN = {spelling for spelling in TABLE.own_spellings("ctm") if spelling.startswith("--")}
HAVING = {option: mode.word for mode in TABLE.modes.values() for option in mode.options}
OFFERED = [
    ("ctm ru", {"run"}),
    *((f"ctm {mode.word} --", {f"--{option}" for option in mode.options}) for mode in TABLE.modes.values()),
    *((f"ctm {HAVING[option.word]} --{option.word} ", {*option.words}) for option in TABLE.options.values()),
    ("ctm save --workers 2 --regions ", {"auto"}),
    ("ctm-tools as", {"assign"}),
    ("ctm-tools import ", {"gmns", "osm", "sumo"}),
    ("ctm-tools draw --ru", {"--runs"}),
]


@pytest.mark.parametrize("shell", SHELLS)
@pytest.mark.parametrize("line, offered", OFFERED, ids=lambda it: it if isinstance(it, str) else "")
def test_what_a_shell_offers(shell, line, offered, unpacked):
    told = SHELLS[shell](line.split(" "), unpacked["deb"])
    assert {*told} - {""} == offered and len(told) == len({*told})


@pytest.mark.parametrize("shell", SHELLS)
def test_a_shell_offers_modes_and_own_words_first(shell, unpacked):
    """bash and zsh offer the options too, which may stand before the mode."""
    told = {*SHELLS[shell](["ctm", ""], unpacked["deb"])}
    assert {it for it in told if not it.startswith("-")} - {"help"} == {*TABLE.modes}
    options = set() if shell == "fish" else {f"--{option}" for option in TABLE.options}
    assert {it for it in SHELLS[shell](["ctm", "--"], unpacked["deb"])} == OWN | options


@pytest.mark.parametrize("sign", ["<", ">", ">>"])
def test_bash_offers_files_for_input_and_text(sign, unpacked):
    """By the function, in place of the shell, which leaves the words behind these signs to it. The other shells don't."""
    asks = 'compopt() { :; }; . "$1"; COMP_WORDS=(ctm run "$2" examples/bottleneck.c) COMP_CWORD=3; _ctm; echo "${COMPREPLY[@]}"'
    completion = unpacked["deb"].prefix / "share/bash-completion/completions/ctm"
    told = subprocess.run(["bash", "-c", asks, "bash", completion, sign], cwd=TOP, stdout=subprocess.PIPE, check=True, text=True)
    assert told.stdout == "examples/bottleneck.csv\n"
