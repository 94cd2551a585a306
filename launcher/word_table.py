"""The table of the words of the programs, launcher/words.table."""

import shlex
from dataclasses import dataclass, field
from pathlib import Path

TABLE = Path(__file__).resolve().parent / "words.table"


@dataclass(frozen=True)
class Mode:
    """A mode: the sort of input that it reads, its options, and what it does."""

    word: str
    input: str
    options: list[str]
    says: str


@dataclass(frozen=True)
class Option:
    """An option: the letter that stands for its value, the values that it may have, its default, and what it says."""

    word: str
    letter: str
    values: str
    default: str
    says: str

    @property
    def range(self) -> tuple[int, int] | None:
        """The least and the greatest whole number among the values, where there are numbers."""
        return range_of(self.values)

    @property
    def words(self) -> list[str]:
        """The words among the values."""
        return [value for value in self.values.split(",") if ".." not in value]


@dataclass(frozen=True)
class OwnWord:
    """A word that commands answer themselves, by each of its spellings."""

    commands: list[str]
    spellings: list[str]
    behind: str
    says: str


@dataclass
class WordTable:
    """All lines of the table."""

    version: str = ""
    inputs: dict[str, int] = field(default_factory=dict)
    modes: dict[str, Mode] = field(default_factory=dict)
    options: dict[str, Option] = field(default_factory=dict)
    waiting: str = ""
    own: list[OwnWord] = field(default_factory=list)

    def own_spellings(self, command: str) -> list[str]:
        """The words that a command answers itself."""
        return [spelling for word in self.own if command in word.commands for spelling in word.spellings]


def read_table(path: Path = TABLE) -> WordTable:
    """The table that stands in a file."""
    table = WordTable()
    for line in path.read_text().splitlines():
        match shlex.split(line, comments=True):
            case ["version", version]:
                table.version = version
            case ["input", kind, most]:
                table.inputs[kind] = int(most)
            case ["option", word, letter, values, default, says]:
                table.options[word] = Option(word, letter, values, default, says)
            case ["mode", word, kind, options, says]:
                table.modes[word] = Mode(word, kind, listed(options), says)
            case ["waiting", _, values]:
                table.waiting = values
            case ["own", commands, spellings, behind, says]:
                table.own.append(OwnWord(listed(commands), listed(spellings), behind, says))
            case []:
                pass
            case _:
                raise ValueError(f"{path}: no line of the table: {line}")
    return table


def listed(text: str) -> list[str]:
    return text.split(",") if text else []


def range_of(values: str) -> tuple[int, int] | None:
    """The ends of the range that values begin with, where they do."""
    least, dots, most = values.partition(",")[0].partition("..")
    return (int(least), int(most)) if dots else None
