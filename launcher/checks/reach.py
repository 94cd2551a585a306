"""Which test files reach a file: those that import it, those that name it, and those that call a command of the tools with it."""

import ast
import re
from fnmatch import fnmatch
from functools import cache, cached_property

# Of each part by pytest its test files, by the folder and the beginning of their names.
OF_LAUNCHER = ("test_launcher_", "test_package", "test_gate", "test_scripts")
OF_TESTS = ("tests/", "tools/tests/")
READ_BY_FOLDER = ("tools/ctmtools/", "tools/figures/", "docs/web/")
TOOLS = "tools/ctmtools/"
COMMANDS = f"{TOOLS}commands/"
ALL_COMMANDS = f"{TOOLS}command_line.py"
PACKAGE = "/__init__.py"
ROOTS = ("", "tests/", "tools/", "bench/", "packaging/", "launcher/", ".ci/", "docs/web/")  # of the names of modules


class Tests:
    """The test files of the repository, and what they reach."""

    def __init__(self, top):
        self.top = top
        of_tests = sorted(path.relative_to(top).as_posix() for path in (top / "tests").glob("test_*.py"))
        of_launcher = [path for path in of_tests if path.removeprefix("tests/").startswith(OF_LAUNCHER)]
        self.files = {"program": [path for path in of_tests if path not in of_launcher], "launcher": of_launcher,
                      "tools": sorted(path.relative_to(top).as_posix() for path in (top / "tools/tests").glob("test_*.py"))}

    def reached(self, part, paths):
        """The test files of a part that reach one of these paths."""
        return [file for file in self.files[part] if any(self.reaches(file, path) for path in paths)]

    def reaches(self, file, path):
        if any(self.runs(file, source) for source in self.read_with(path)):
            return True
        if path.endswith(".py") and path.startswith((TOOLS, *OF_TESTS)):
            return False
        return any(names(words, path) for words in self.told(file))

    def runs(self, file, source):
        """Whether a test file imports a source, or names one that does or a command of the tools by which it is reached."""
        if any(source in self.below(it) for it in (file, *self.named(file))):
            return True
        return source.startswith(TOOLS) and file in self.files["tools"] and self.calls(file, source)

    @cache
    def read_with(self, path):
        """The sources by which a file is read: itself, or those of its folder, as those of a page are that read its scripts."""
        folder = path.rpartition("/")[0]
        if path in self.read_by_name or not path.startswith(READ_BY_FOLDER):
            return [path]
        return [path, *(source for source in self.texts if source.rpartition("/")[0] == folder)]

    @cached_property
    def read_by_name(self):
        """The sources that others import, and the commands."""
        return {*self.commands.values()}.union(*self.imports.values())

    @cache
    def named(self, file):
        """The sources that the texts of a test file name, as those that it runs, but for tests and tools."""
        return {it for it in self.texts.keys() & set().union(*self.told(file)) if not it.startswith((TOOLS, *OF_TESTS))}

    @cache
    def told(self, file):
        """The texts of a test file, and of what it imports of the tests."""
        return [self.words(source) for source in self.below(file) if source.startswith(OF_TESTS)]

    @cached_property
    def texts(self):
        """The Python sources by their paths."""
        folders = ("tests", "tools/tests", "tools/ctmtools", "tools/figures", "bench", "packaging", "launcher", ".ci", "docs/web")
        paths = [path for folder in folders for path in (self.top / folder).rglob("*.py")]
        return {path.relative_to(self.top).as_posix(): path.read_text() for path in sorted(paths)}

    @cached_property
    def imports(self):
        return {path: self.texts.keys() & set(self.imported(path, text)) for path, text in self.texts.items()}

    def imported(self, path, text):
        """The sources that a source imports itself; each test has the file of fixtures beside it."""
        folder, _, name = path.rpartition("/")
        if name.startswith("test_"):
            yield f"{folder}/conftest.py"
        for node in ast.walk(ast.parse(text)):
            if isinstance(node, ast.ImportFrom):
                for it in node.names:
                    yield from self.sources_of(module_of(node, folder), it.name)
            elif isinstance(node, ast.Import):
                for it in node.names:
                    yield from self.sources_of(it.name.split("."), "")

    def sources_of(self, module, name):
        """The sources of a module, and of a name in it: what a package has from elsewhere is followed, and no more of it."""
        for end in range(len(module), 0, -1):
            yield from self.at(module[:end])
        yield from self.at([*module, name])
        for package in self.at(module):
            if package.endswith(PACKAGE):
                for node in imports_of(self.texts[package], name):
                    yield from self.sources_of(module_of(node, package.removesuffix(PACKAGE)), name)

    def at(self, words):
        """The sources that a dotted name may stand for."""
        place = "/".join(words)
        paths = [f"{root}{place}{end}" for root in ROOTS for end in (".py", PACKAGE)]
        return [path for path in paths if path in self.texts]

    @cache
    def below(self, path):
        """A source and all that it imports, by whatever way. A package by itself and the list of commands import nothing here."""
        found, last = set(), {path} & self.texts.keys()
        while last:
            found |= last
            last = {it for source in last if not source.endswith(PACKAGE) for it in self.imports[source]} - found
        return frozenset(found)

    def calls(self, file, path):
        """Whether a test file names a command by which a source of the tools is reached."""
        return any(path in self.below(module) for word, module in self.commands.items() if word in self.words(file))

    @cache
    def words(self, path):
        """The texts that stand in a source, without what documents it."""
        nodes = list(ast.walk(ast.parse(self.texts[path])))
        documents = {id(node.value) for node in nodes if isinstance(node, ast.Expr)}
        return {node.value for node in nodes
                if isinstance(node, ast.Constant) and isinstance(node.value, str) and id(node) not in documents}

    @cached_property
    def commands(self):
        """The module of each command by the command's word."""
        modules = re.search(r"^MODULES = (\{.*?\})", self.texts.get(ALL_COMMANDS, ""), re.MULTILINE | re.DOTALL)
        words = {module: word for word, module in ast.literal_eval(modules[1]).items()} if modules else {}
        stems = {path: path.removeprefix(COMMANDS).removesuffix(".py") for path in self.texts if path.startswith(COMMANDS)}
        return {words.get(stem, stem): path for path, stem in stems.items()}


def imports_of(text, name):
    """The imports by which a source has a name from elsewhere."""
    return [node for node in ast.walk(ast.parse(text))
            if isinstance(node, ast.ImportFrom) and name in [it.asname or it.name for it in node.names]]


def module_of(node, folder):
    """The words of the module that an import of names is from, in a source of this folder."""
    above = folder.split("/")
    base = above[:len(above) - node.level + 1] if node.level else []
    return [*base, *(node.module.split(".") if node.module else [])]


def names(words, path):
    """Whether the texts of a test name a file, or its folder, or all files of its kind in a folder that they name."""
    folder, _, name = path.rpartition("/")
    told = name if "." in name else path
    if folder in words and "/" in folder or any(told in word for word in words):
        return True
    kinds = [word for word in words if "*" in word and fnmatch(name, word.rpartition("/")[2])]
    return any(kind.startswith(f"{folder}/") or folder in words for kind in kinds)
