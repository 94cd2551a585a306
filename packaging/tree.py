"""The tree that is installed: which files it has, and where each comes from."""

import shutil
from pathlib import Path

import completions
from bill import BILL, bill_of
from built import PROGRAMS, TOP, Built
from word_table import read_table

EXAMPLES = ("examples/README.md", "examples/*.csv", "examples/*.toml", "examples/*.txt", "examples/*.osm", "examples/*.plans",
            "examples/*.report", "examples/validation/*")
DOCUMENTS = ("README.md", "CHANGELOG.md", "SECURITY.md", "docs/*.md", "docs/how-to/*.md", "docs/pictures/*", "docs/inside/*.md",
             "docs/inside/pictures/*", "docs/web/*.md", *EXAMPLES)
TOOLS_DOCUMENTS = ("tools/README.md", "tools/docs/*.md")
LICENSES = ("LICENSE-*",)
# Where the shells look for the completions of a command, below share.
COMPLETION_PLACES = {"bash": "bash-completion/completions/{}", "zsh": "zsh/site-functions/_{}",
                     "fish": "fish/vendor_completions.d/{}.fish"}


def lay_programs(folder: Path, built: Built) -> None:
    """The programs, their commands, manual pages and completions."""
    for name, path in zip(PROGRAMS, (built.program, built.waiting_program)):
        copy(path, folder / "lib/ctm" / name, 0o755)
    for name in ("words", "words.table", "waiting", "stack"):
        copy(TOP / "launcher" / name, folder / "lib/ctm" / name)
    put(folder / "lib/ctm/BUILD", built.note)
    put(folder / "lib/ctm" / BILL, bill_of(built))
    for name in ("ctm", "ctm-wait"):
        copy(TOP / "launcher/installed" / name, folder / "bin" / name, 0o755)
        copy(TOP / f"docs/{name}.1", folder / f"share/man/man1/{name}.1")
    for shell, place in COMPLETION_PLACES.items():
        put(folder / "share" / place.format("ctm"), completions.BY_SHELL[shell](read_table()))


def lay_documents(folder: Path, patterns: tuple[str, ...] = DOCUMENTS) -> None:
    """The documents and examples, beside each other as in the repository."""
    lay_files(folder / "share/doc/ctm", patterns)


def lay_files(folder: Path, patterns: tuple[str, ...]) -> None:
    """The files of the repository that have these names, each where it stands there."""
    for pattern in patterns:
        for path in sorted(TOP.glob(pattern)):
            copy(path, folder / path.relative_to(TOP))


def lay_tools(folder: Path, python: str, command: Path) -> None:
    """The engineers' tools, in this folder of Python's packages, with this command, their manual page and documents."""
    lay_package(folder / python)
    copy(command, folder / "bin/ctm-tools", 0o755)
    lay_tools_pages(folder)
    lay_documents(folder, TOOLS_DOCUMENTS)


def lay_tools_pages(folder: Path) -> None:
    """The manual page and the completions of the tools."""
    copy(TOP / "docs/ctm-tools.1", folder / "share/man/man1/ctm-tools.1")
    for shell, place in COMPLETION_PLACES.items():
        copy(TOP / f"packaging/shells/ctm-tools.{shell}", folder / "share" / place.format("ctm-tools"))


def lay_package(folder: Path) -> None:
    """The Python package ctmtools."""
    for path in sorted((TOP / "tools/ctmtools").rglob("*")):
        if path.is_file() and path.suffix != ".pyc":
            copy(path, folder / path.relative_to(TOP / "tools"))


def copy(source: Path, target: Path, mode: int = 0o644) -> None:
    """Copies a file, whose mode is then this one."""
    target.parent.mkdir(parents=True, exist_ok=True)
    shutil.copyfile(source, target)
    target.chmod(mode)


def put(target: Path, text: str, mode: int = 0o644) -> None:
    """Writes a file."""
    target.parent.mkdir(parents=True, exist_ok=True)
    target.write_text(text)
    target.chmod(mode)
