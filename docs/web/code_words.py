"""Short words of code, as `--regions`, which the theme keeps on one line: else a browser breaks them at their dashes."""

from xml.etree.ElementTree import Element

from markdown import Markdown
from markdown.extensions import Extension
from markdown.treeprocessors import Treeprocessor

LONGEST = 24  # of a word that fits beside others on a narrow screen


class CodeWords(Treeprocessor):
    def run(self, root: Element) -> None:
        for code in root.iter("code"):
            if code.text and " " not in code.text and len(code.text) <= LONGEST:
                code.set("class", "word")


class CodeWordsExtension(Extension):
    def extendMarkdown(self, md: Markdown) -> None:
        md.treeprocessors.register(CodeWords(md), "code_words", 0)  # behind those that make code of what stands in backticks
