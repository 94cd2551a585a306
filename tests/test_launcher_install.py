"""./ctm --install and --uninstall: what stands under the prefix before, after, and where a call is broken off."""

import errno
import hashlib
import itertools
import os
import re
import shutil
import subprocess
import sys
from pathlib import Path

import pytest
from conftest import TOP

sys.path[:0] = [str(TOP / "launcher"), str(TOP / "packaging")]
from prefix import Prefix
from problem import Problem

PLAIN = {"PATH": "/usr/bin:/bin", "HOME": "/nonexistent"}
# What changes a file system, by the names under which Python tells it; so does what is opened to be written.
CHANGES = {"os.mkdir", "os.symlink", "os.rename", "os.remove", "os.rmdir", "os.chmod", "shutil.copyfile"}
KILLED = 9


@pytest.fixture
def installing(built):
    """A repository whose program is built, with all that ./ctm --install takes from it."""
    for folder in ("packaging", "docs", "examples"):
        shutil.copytree(TOP / folder, built.top / folder, ignore=shutil.ignore_patterns("__pycache__"))
    shutil.copytree(TOP / "tools/ctmtools", built.top / "tools/ctmtools", ignore=shutil.ignore_patterns("__pycache__"))
    for path in ("README.md", "CHANGELOG.md", "LICENSE-MIT", "tools/README.md", "tools/find-python", "tools/__main__.py",
                 "tools/pyproject.toml"):
        shutil.copy(TOP / path, built.top / path)
    return built


def path_of(folder, *commands):
    """A path on which these commands alone are found."""
    folder.mkdir()
    for command in commands:
        (folder / command).symlink_to(shutil.which(command))
    return str(folder)


def standing(folder):
    """All that stands in a folder: of each file its bytes, of each link where it leads."""
    def what(path):
        return os.readlink(path) if path.is_symlink() else path.read_bytes() if path.is_file() else None
    return {str(path.relative_to(folder)): what(path) for path in sorted(Path(folder).rglob("*"))}


def run(command, *words, given=b"a\n"):
    """The status of an installed command and what it wrote, as it is called without anything of the repository."""
    ended = subprocess.run([command, *words], input=given, env=PLAIN, cwd="/", stdout=subprocess.PIPE, stderr=subprocess.PIPE)
    return ended.returncode, ended.stdout.decode(), ended.stderr.decode()


def test_a_prefix_gets_the_programs_once_and_is_left_as_it_was(installing, tmp_path):
    prefix = tmp_path / "prefix"
    (prefix / "bin").mkdir(parents=True)
    (prefix / "bin/other").write_text("other\n")
    (prefix / "share/man/man1").mkdir(parents=True)
    before = standing(prefix)
    status, out, err = installing.call("--install", str(prefix))
    told = f"ctm 1.0, commit unknown is installed under {prefix}; its commands are in {prefix}/bin, which isn't on the path\n"
    assert status == 0 and out == told
    assert "5 of 5: ctm_wait" in err, "what isn't built yet is built"
    assert run(prefix / "bin/ctm", "run") == (0, "a\ndone\n", "")
    assert run(prefix / "bin/ctm-wait", "2") == (0, "a\nby 2\n", "")
    assert run(prefix / "bin/ctm-tools", "--version")[1].endswith("/lib/ctm/ctm_program, the packaged one\n")
    assert set(standing(prefix / "share/man/man1")) == {"ctm.1", "ctm-wait.1", "ctm-tools.1"}
    assert (prefix / "share/doc/ctm/examples/bottleneck.toml").is_file()
    whole = standing(prefix)
    elsewhere = "lib", "share/bash-completion", "share/zsh", "share/fish"
    assert {path for path in whole if path not in before and not path.startswith(elsewhere)} == \
        {"bin/ctm", "bin/ctm-wait", "bin/ctm-tools", "share/man/man1/ctm.1", "share/man/man1/ctm-wait.1",
         "share/man/man1/ctm-tools.1", "share/doc", "share/doc/ctm"}

    seen = {path: os.lstat(prefix / path).st_mtime_ns for path in whole}
    status, out, err = installing.call("--install", str(prefix))
    assert (status, err) == (0, "") and out.endswith(f"is installed under {prefix} already; nothing was changed\n")
    assert {path: os.lstat(prefix / path).st_mtime_ns for path in standing(prefix)} == seen

    assert installing.call("--uninstall", str(prefix)) == (0, f"what ./ctm installed under {prefix} is taken away\n", "")
    assert standing(prefix) == before
    assert installing.call("--uninstall", str(prefix)) == \
        (0, f"./ctm has installed nothing under {prefix}; nothing was changed\n", "")


def test_the_prefix_is_that_of_the_user_where_none_is_named(installing):
    assert installing.call("--install")[0] == 0
    assert run(installing.top / ".local/bin/ctm", "run") == (0, "a\ndone\n", "")
    lost = subprocess.run([installing.top / ".local/bin/ctm-tools", "lint"], env={"PATH": "/nonexistent"}, stdout=subprocess.PIPE,
                          stderr=subprocess.PIPE, text=True)
    assert (lost.returncode, lost.stdout, lost.stderr.count("\n")) == (2, "", 1)
    assert installing.call("--uninstall")[0] == 0
    assert not (installing.top / ".local").exists(), "it was made for what is gone"


def test_what_has_changed_takes_the_place_of_the_old(installing, tmp_path):
    installing.call("--install", str(tmp_path / "prefix"))
    source = installing.top / "crates/ctm_program/src/program.sh"
    source.write_text(source.read_text().replace("done", "changed"))
    installing.edit("ctm_program")
    (installing.top / "docs/inside/FIELD.md").unlink()
    assert installing.call("--install", str(tmp_path / "prefix"))[0] == 0
    assert run(tmp_path / "prefix/bin/ctm", "run") == (0, "a\nchanged\n", "")
    assert not (tmp_path / "prefix/share/doc/ctm/docs/inside/FIELD.md").exists()
    assert len(list((tmp_path / "prefix/lib/ctm").glob("tree-*"))) == 1


def test_what_another_put_there_is_not_touched(installing, tmp_path):
    (tmp_path / "prefix/bin").mkdir(parents=True)
    (tmp_path / "prefix/bin/ctm").write_text("another\n")
    before = standing(tmp_path / "prefix")
    status, out, err = installing.call("--install", str(tmp_path / "prefix"))
    assert (status, out) == (2, "")
    assert err.splitlines()[-1] == \
        f"./ctm: {tmp_path}/prefix/bin/ctm is there already, and wasn't installed by ./ctm; nothing was changed"
    assert standing(tmp_path / "prefix") == before


@pytest.mark.parametrize("place", ["share/doc/ctm/examples/own.report", "share/doc/ctm/own", "lib/ctm/current/bin/own"])
def test_what_is_made_among_the_installed_files_is_not_lost(tmp_path, place):
    """As reports are by who works in the installed folder of examples: neither what follows nor an uninstall takes them away."""
    prefix, old, new = Prefix(tmp_path / "prefix"), small_tree(tmp_path / "old", "old"), small_tree(tmp_path / "new", "new")
    prefix.install(old)
    (prefix.folder / place).parent.mkdir(exist_ok=True)
    (prefix.folder / place).write_text("own\n")
    before = standing(prefix.folder)
    inside = (prefix.folder / place).resolve().relative_to(prefix.current.resolve())
    told = f"{prefix.current / inside} wasn't installed by ./ctm and would be lost; nothing was changed"
    assert prefix.has(old), "a second call changes nothing"
    for does in (lambda: prefix.install(new), prefix.uninstall):
        with pytest.raises(Problem, match=f"^{re.escape(told)}$"):
            does()
        assert standing(prefix.folder) == before
    (prefix.folder / place).unlink()
    prefix.install(new)
    assert says(prefix.folder) == "new"


def test_what_another_has_beside_it_stays(tmp_path):
    """Files in folders that an installation has too, one of them its own."""
    prefix = Prefix(tmp_path / "prefix")
    prefix.install(small_tree(tmp_path / "new", "new"))
    others = ["lib/ctm/own", "bin/own", "share/man/man1/own.1", "share/doc/own/README.md"]
    for place in others:
        (prefix.folder / place).parent.mkdir(exist_ok=True)
        (prefix.folder / place).write_text("own\n")
    (prefix.folder / "bin/linked").symlink_to("../lib/ctm/own")
    prefix.uninstall()
    assert {path for path, what in standing(prefix.folder).items() if what is not None} == {*others, "bin/linked"}


NO_TEXT = b"\xff\xfe"


def put_note(folder, content):
    folder.mkdir()
    (folder / "files").write_bytes(content)


# What another may have put beside the installed tree, under names like its own: each makes it, and names it.
BESIDE = {
    "a folder": lambda home, elsewhere: (home / "tree-NAME/deep").mkdir(parents=True) or (home / "tree-NAME/deep/own").write_text("own\n"),
    "a file": lambda home, elsewhere: (home / "tree-note").write_text("own\n"),
    "a link": lambda home, elsewhere: (home / "tree-link").symlink_to(elsewhere),
    "a link to nothing": lambda home, elsewhere: (home / "tree-gone").symlink_to("gone"),
    "a folder with the form of its names": lambda home, elsewhere: shutil.copytree(elsewhere, home / f"tree-{'0' * 64}"),
    "a note that is no text": lambda home, elsewhere: put_note(home / f"tree-{hashlib.sha256(NO_TEXT).hexdigest()}", NO_TEXT),
    "a link with the form of its names": lambda home, elsewhere: (home / f"tree-{'0' * 64}").symlink_to(elsewhere),
    "a file that is only written": lambda home, elsewhere: (home / ".part").write_text("own\n"),
}


@pytest.mark.parametrize("puts", BESIDE.values(), ids=BESIDE)
def test_what_another_put_beside_the_tree_stays_and_each_call_can_be_made(tmp_path, puts):
    prefix, old, new = Prefix(tmp_path / "prefix"), small_tree(tmp_path / "old", "old"), small_tree(tmp_path / "new", "new")
    elsewhere = tmp_path / "elsewhere"
    elsewhere.mkdir()
    (elsewhere / "own").write_text("own\n")
    prefix.install(old)
    before = {*standing(prefix.home)}
    puts(prefix.home, elsewhere)
    own = {path: what for path, what in standing(prefix.home).items() if path not in before}
    for does, wanted in ((lambda: prefix.install(new), "new"), (prefix.uninstall, None), (lambda: prefix.install(old), "old"),
                         (prefix.uninstall, None)):
        does()
        assert says(prefix.folder) == wanted
        assert own.items() <= standing(prefix.home).items() and (elsewhere / "own").read_text() == "own\n"
    assert standing(prefix.home) == own


def damaged(change):
    return lambda note, own: note.write_bytes(change(note.read_bytes()))


def replaced(by):
    return lambda note, own: note.unlink() or by(note)


# What may have become of the note of the installed files: each gets its path, and that of a file of the user's in the tree.
DAMAGES = {
    "missing": lambda note, own: note.unlink(),
    "empty": damaged(lambda text: b""),
    "cut off": damaged(lambda text: text[:len(text) // 2]),
    "no text": damaged(lambda text: b"\xff\n" * 9),
    "with the user's file": lambda note, own: note.write_text(note.read_text() + f"{sum_of(own)} 644 share/doc/ctm/own\n"),
    "with a file elsewhere": lambda note, own: note.write_text(note.read_text() + f"{sum_of(own)} 644 ../../../../own\n"),
    "a link": replaced(lambda note: note.symlink_to("/dev/null")),
    "a folder": replaced(lambda note: note.mkdir()),
}


def sum_of(path):
    return hashlib.sha256(path.read_bytes()).hexdigest()


@pytest.mark.parametrize("damages", DAMAGES.values(), ids=DAMAGES)
def test_where_the_note_is_damaged_no_file_of_the_user_s_is_lost_and_each_call_can_be_made(tmp_path, damages):
    prefix, old, new = Prefix(tmp_path / "prefix"), small_tree(tmp_path / "old", "old"), small_tree(tmp_path / "new", "new")
    prefix.install(old)
    own = (prefix.home / "current/share/doc/ctm/own").resolve()
    for path in own, tmp_path / "own":
        path.write_text("own\n")
    damages(prefix.home / "current/files", own)
    for does, wanted in ((prefix.uninstall, None), (lambda: prefix.install(old), "old"), (lambda: prefix.install(new), "new"),
                         (prefix.uninstall, None), (prefix.uninstall, None)):
        does()
        assert says(prefix.folder) == wanted
        assert own.read_text() == (tmp_path / "own").read_text() == "own\n"


def noted(folder):
    return hashlib.sha256(os.fsencode(folder)).hexdigest().encode() + b" " + os.fsencode(folder) + b"\0"


@pytest.mark.parametrize("entry", [noted, lambda folder: os.fsencode(folder) + b"\0", lambda folder: os.fsencode(folder),
                                   lambda folder: noted(folder)[:-9]])
def test_no_folder_elsewhere_is_removed_whatever_the_note_of_folders_has(tmp_path, entry):
    prefix, tree = Prefix(tmp_path / "prefix"), small_tree(tmp_path / "tree", "new")
    prefix.install(tree)
    others = [tmp_path / "elsewhere", prefix.folder / "share/own", prefix.folder / "bin/own"]
    for other in others:
        other.mkdir()
        with open(prefix.home / "folders", "ab") as note:
            note.write(entry(other))
    prefix.uninstall()
    assert all(other.is_dir() for other in others)
    prefix.install(tree)
    assert says(prefix.folder) == "new"


@pytest.mark.parametrize("place", ["share/doc/ctm/README.md", "lib/ctm/old"])
def test_an_installed_file_that_was_changed_is_not_lost(tmp_path, place):
    prefix, old, new = Prefix(tmp_path / "prefix"), small_tree(tmp_path / "old", "old"), small_tree(tmp_path / "new", "new")
    prefix.install(old)
    with open(prefix.current / place, "a") as file:
        file.write("own\n")
    before = standing(prefix.folder)
    told = f"{prefix.current / place} was changed since ./ctm installed it and would be lost; nothing was changed"
    for does in (lambda: prefix.install(new), prefix.uninstall):
        with pytest.raises(Problem, match=f"^{re.escape(told)}$"):
            does()
        assert standing(prefix.folder) == before
    (prefix.current / place).unlink()
    prefix.install(old)
    assert standing(prefix.folder).keys() == before.keys() and prefix.has(old)


# Where a link may have been put in the place of what was installed, and whether it leads to a folder or to a file.
PLACES = ["lib/ctm/current", "lib/ctm/folders", "lib/ctm/current/share/doc/ctm", "lib/ctm/current/bin/ctm", "bin/ctm", "share/doc/ctm"]


@pytest.mark.parametrize("place", PLACES)
def test_behind_a_link_that_another_placed_nothing_is_touched(tmp_path, place):
    """It leads to a copy of what stood there, which is the user's own. Both calls can be made once it is gone."""
    prefix, tree, new = Prefix(tmp_path / "prefix"), small_tree(tmp_path / "tree", "old"), small_tree(tmp_path / "new", "new")
    prefix.install(tree)
    at, own = prefix.folder / place, tmp_path / "own"
    (shutil.copytree if at.is_dir() else shutil.copy)(at, own)
    if at.is_dir() and not at.is_symlink():
        shutil.rmtree(at)
    else:
        at.unlink()
    at.symlink_to(own)
    before = standing(own) if own.is_dir() else own.read_bytes()
    for does in (lambda: prefix.refuse_what_is_anothers(new) or prefix.install(new), prefix.uninstall):
        try:
            does()
        except Problem as problem:
            assert "nothing was changed" in str(problem)
        assert (standing(own) if own.is_dir() else own.read_bytes()) == before
        assert not at.is_symlink() or os.readlink(at) == str(own) or not os.path.lexists(own)
    if at.is_symlink():
        at.unlink()
    prefix.install(new)
    assert says(prefix.folder) == "new"
    prefix.uninstall()
    assert says(prefix.folder) is None


def test_what_python_keeps_of_the_installed_modules_goes_with_them_and_nothing_else_beside_it(tmp_path):
    prefix, tree = Prefix(tmp_path / "prefix"), small_tree(tmp_path / "tree", "new")
    (tree / "lib/ctm/module.py").write_text("")
    prefix.install(tree)
    kept = prefix.current / "lib/ctm/__pycache__"
    kept.mkdir()
    (kept / "module.cpython-311.pyc").write_text("")
    (kept / "module.cpython-311.pyc.139872").write_text("")
    (kept / "own.pyc").write_text("")
    with pytest.raises(Problem, match="own.pyc wasn't installed by ./ctm and would be lost"):
        prefix.uninstall()
    (kept / "own.pyc").unlink()
    prefix.uninstall()
    assert not prefix.folder.exists()


def test_what_cannot_be_taken_away_is_told_and_stays(tmp_path, monkeypatch):
    """Once the new stands in the place of the old, what the system says of the old makes no call fail."""
    prefix, old, new = Prefix(tmp_path / "prefix"), small_tree(tmp_path / "old", "old"), small_tree(tmp_path / "new", "new")
    prefix.install(old)
    stuck = prefix.current.resolve() / "lib/ctm/old"
    unlink = Path.unlink

    def refused(path, **how):
        if path == stuck:
            raise PermissionError(errno.EPERM, "Operation not permitted", str(path))
        unlink(path, **how)
    with monkeypatch.context() as patched:
        patched.setattr(Path, "unlink", refused)
        assert prefix.install(new) == [f"{stuck}: operation not permitted"]
        assert says(prefix.folder) == "new"
    prefix.uninstall()
    assert says(prefix.folder) is None


def test_a_folder_of_commands_that_is_a_link_gets_commands_that_run(tmp_path):
    """As ~/.local/bin where it leads to ~/bin, from which other paths lead to the tree than from the link."""
    (tmp_path / "home/bin").mkdir(parents=True)
    (tmp_path / "home/.local").mkdir()
    (tmp_path / "home/.local/bin").symlink_to("../bin")
    before = standing(tmp_path / "home")
    prefix, tree = Prefix(tmp_path / "home/.local"), small_tree(tmp_path / "tree", "new")
    prefix.install(tree)
    assert says(prefix.folder) == "new" and prefix.has(tree)
    prefix.uninstall()
    assert standing(tmp_path / "home") == before


def commit(top):
    """Makes a commit of all that stands in a folder, and isn't built."""
    shutil.copy(TOP / ".gitignore", top)
    for words in (["init", "-q"], ["add", "."], ["-c", "user.name=a", "-c", "user.email=a@b", "commit", "-q", "-m", "a"]):
        subprocess.run(["git", *words], cwd=top, check=True)


def test_nothing_is_written_where_git_keeps_the_repository(installing, tmp_path):
    """Not even the index of a file that was touched, whose lock a call that is broken off would leave."""
    commit(installing.top)
    os.utime(installing.top / "crates.txt", (1, 1))
    before = standing(installing.top / ".git")
    assert installing.call("--version")[0] == installing.call("--install", str(tmp_path / "prefix"))[0] == 0
    assert standing(installing.top / ".git") == before


@pytest.mark.parametrize("path, changed", [("made/ctm.deb", False), ("docs/MORE.md", True), ("tools/ctmtools/more.py", True)])
def test_only_files_that_are_packaged_differ_from_the_commit(installing, tmp_path, path, changed):
    """So packages that were made in the repository itself don't change those that are made after them."""
    commit(installing.top)
    (installing.top / path).parent.mkdir(exist_ok=True)
    (installing.top / path).write_text("more\n")
    installing.call("--install", str(tmp_path))
    assert ("with changes that are not committed" in run(tmp_path / "bin/ctm", "--version")[1]) == changed


def test_the_tools_take_no_module_from_the_folder_where_they_are_called(installing, tmp_path):
    installing.call("--install", str(tmp_path / "prefix"))
    (tmp_path / "click.py").write_text("raise SystemExit('the module of another')\n")
    for command in tmp_path / "prefix/bin/ctm-tools", TOP / "ctm-tools":
        told = subprocess.run([command, "--help"], cwd=tmp_path, env=PLAIN, stdout=subprocess.PIPE, text=True)
        assert (told.returncode, told.stdout[:16]) == (0, "Usage: ctm-tools"), command


def test_the_name_of_a_prefix_may_be_any_bytes(installing, tmp_path):
    prefix = os.fsencode(tmp_path) + b"/a\xff\nb"
    for word, told in (("--install", b" is installed under %s; its"), ("--uninstall", b" under %s is taken away\n")):
        ended = subprocess.run([installing.top / "ctm", word, prefix], env=installing.environment, stdout=subprocess.PIPE)
        assert ended.returncode == 0 and told % prefix in ended.stdout
    assert not os.path.lexists(prefix)


def test_where_standard_output_is_full_what_was_done_is_told_in_the_line_of_the_fault(installing, tmp_path):
    with open("/dev/full", "wb") as full:
        ended = subprocess.run([installing.top / "ctm", "--uninstall", tmp_path], env=installing.environment, stdout=full,
                               stderr=subprocess.PIPE, text=True)
    assert ended.returncode == 2
    assert ended.stderr == ("./ctm: standard output: no space left on device; ./ctm has installed nothing under "
                            f"{tmp_path}; nothing was changed\n")


def small_tree(folder, says):
    """A tree of one program, a file that this version alone has, and all folders of a tree."""
    for path in ("bin/ctm", f"bin/{says}", f"lib/ctm/{says}", "share/man/man1/ctm.1", "share/doc/ctm/README.md",
                 "share/bash-completion/completions/ctm", "share/zsh/site-functions/_ctm",
                 "share/fish/vendor_completions.d/ctm.fish"):
        (folder / path).parent.mkdir(parents=True, exist_ok=True)
        (folder / path).write_text(f"#!/bin/sh\necho {says}\n")
        (folder / path).chmod(0o755)
    return folder


def changes_files(event, words):
    return event in CHANGES or event == "open" and isinstance(words[1], str) and words[1][0] in "wa"


def broken_off(changes, does):
    """Whether what a process of its own does was ended, as by the system, before its change of this number."""
    child = os.fork()
    if child == 0:
        left = itertools.count(changes, -1)
        sys.addaudithook(lambda event, words: os._exit(KILLED) if changes_files(event, words) and next(left) == 0 else None)
        does()
        os._exit(0)
    return os.waitstatus_to_exitcode(os.waitpid(child, 0)[1]) == KILLED


def says(prefix):
    """What the installed program says, or nothing where there is none."""
    return run(prefix / "bin/ctm")[1].strip() if (prefix / "bin/ctm").exists() else None


@pytest.mark.parametrize("before, after", [(None, "new"), ("old", "new"), ("old", None)])
def test_a_call_that_is_killed_at_any_moment_leaves_the_old_or_the_new(tmp_path, before, after):
    trees = {it: small_tree(tmp_path / it, it) for it in ("old", "new")}
    left = set()
    for changes in itertools.count():
        prefix = Prefix(tmp_path / f"prefix-{changes}")
        if before:
            prefix.install(trees[before])
        killed = broken_off(changes, lambda: prefix.install(trees[after]) if after else prefix.uninstall())
        left.add(says(prefix.folder))
        # The next call does the whole, and what is left of this one is gone.
        prefix.install(trees["new"])
        assert says(prefix.folder) == "new"
        assert len(list(prefix.home.glob("tree-*"))) == 1
        assert [it for it in prefix.folder.rglob("*") if it.is_symlink() and not it.exists()] == []
        assert not (prefix.folder / "bin/old").exists()
        prefix.uninstall()
        assert [it for it in prefix.folder.rglob("*") if not it.is_dir()] == []
        if not killed:
            break
    assert changes > 10
    assert left == {before, after}


@pytest.mark.parametrize("prefix", ["/dev/null/prefix", "/proc/prefix"])
def test_a_prefix_that_cannot_be_written_to_is_told_in_one_line(installing, prefix):
    assert installing.call("--path", command="ctm-wait")[0] == 0
    status, out, err = installing.call("--install", prefix)
    assert (status, out, err.count("\n")) == (2, "", 1)
    assert re.fullmatch(r"\./ctm: /(dev/null|proc)\S*: (can't be written to|no such file or directory); nothing was (built or "
                        r"installed|changed)\n", err)


def test_a_full_disk_is_told_in_one_line_and_nothing_is_left(installing, tmp_path):
    """On a file system of 256 KiB, in a name space of its own where this isn't root."""
    disk = tmp_path / "disk"
    disk.mkdir()
    assert installing.call("--path", command="ctm-wait")[0] == 0
    fills = (f"mount -t tmpfs -o size=256k tmpfs {disk} && "
             f"{{ {installing.top}/ctm --install {disk}/prefix; echo $?; ls -A {disk}; }}")
    apart = ["unshare", "-m"] if os.getuid() == 0 else ["unshare", "-rm"]
    ended = subprocess.run([*apart, "bash", "-c", fills], env=installing.environment, stdout=subprocess.PIPE,
                           stderr=subprocess.PIPE, text=True)
    assert ended.stdout == "2\n"
    assert re.fullmatch(rf"\./ctm: {disk}/\S+: no space left on device; nothing was changed\n", ended.stderr)


# A command, what it finds on the path beside bash, and what it says where ctm is built there and ctm-wait isn't.
LACKING = [
    (["ctm", "--install", "/nonexistent"], [], (2, "python3 isn't on the path; nothing was changed")),
    (["ctm", "--uninstall", "/nonexistent"], [], (2, "python3 isn't on the path; nothing was changed")),
    (["ctm", "--install", "prefix"], ["python3"], (125, "find isn't on the path, so nothing was built or run")),
    (["ctm", "run"], ["find"], (125, "sha256sum isn't on the path, so nothing was built or run")),
    (["ctm", "run", "--no"], [], (125, "find isn't on the path, so nothing was built or run")),
    (["ctm-wait", "1"], ["find", "sha256sum", "sort"], (125, "the toolchain's command rt isn't on the path, so nothing was built or run")),
]


def test_a_path_that_lacks_a_command_is_told_in_one_line(installing, tmp_path):
    for number, (words, has, (status, told)) in enumerate(LACKING):
        path = path_of(tmp_path / f"lacking-{number}", "bash", *has)
        ended = subprocess.run([installing.top / words[0], *words[1:]], env={"PATH": path, "HOME": "/"}, cwd=tmp_path,
                               stdin=subprocess.DEVNULL, stdout=subprocess.PIPE, stderr=subprocess.PIPE, text=True)
        assert (ended.returncode, ended.stdout, ended.stderr) == (status, "", f"./{words[0]}: {told}\n")
    assert not (tmp_path / "prefix").exists()


@pytest.mark.parametrize("words", [("--install", "a", "b"), ("--install", "--quiet"), ("--uninstall", "")])
def test_words_that_name_no_prefix_are_refused(repository, words):
    status, out, err = repository.call(*words)
    assert (status, out, err.count("\n")) == (2, "", 1)
    assert "takes one word, the folder under which things stand" in err


def test_without_a_home_the_prefix_has_to_be_named(repository):
    ended = subprocess.run([repository.top / "ctm", "--install"], env={"PATH": "/usr/bin:/bin"}, stdout=subprocess.PIPE,
                           stderr=subprocess.PIPE, text=True)
    assert (ended.returncode, ended.stdout) == (2, "")
    assert "takes one word, the folder under which things stand" in ended.stderr
