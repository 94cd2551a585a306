"""The tokens of a source, without its comments and its layout: those of Rattle, and those of antt, which stands in `.antt`
files and between the braces of a clause.
"""

import re
from typing import NamedTuple

TEXT = r'"(?:\\.|[^"\\])*"'
RAW_TEXT = r'r(?P<hashes>#*)".*?"(?P=hashes)'
# A prime behind a word belongs to it, as in `n'` of a clause; before a word it begins the name of a lifetime.
RATTLE = re.compile(rf"(?:b|c)?(?:{RAW_TEXT}|{TEXT})|b?'(?:\\u\{{[^}}]*\}}|\\x..|\\.|[^'\\\n])'|'\w+|\w+'*"
                    r"|::|->|=>|\.\.=|\.\.\.|\.\.|.", re.DOTALL)
ANTT = re.compile(rf"{TEXT}|«[^»]*»|[()\[\]{{}};,]|(?:[^\s()\[\]{{}};,\"«]|«[^»]*»)+|.", re.DOTALL)
LINE_ENDS = re.compile(r"\n|\Z")
OPENING, CLOSING = "([{", ")]}"


class Token(NamedTuple):
    text: str
    begin: int
    end: int


def tokens_of(source, pattern, line_comment, block_comment):
    """The tokens by a pattern. A block comment may have others inside."""
    found, at = [], 0
    while at < len(source):
        if source[at].isspace():
            at += 1
        elif source.startswith(line_comment, at):
            at = LINE_ENDS.search(source, at).start()
        elif source.startswith(block_comment[0], at):
            at = end_of_comment(source, at, block_comment)
        else:
            end = pattern.match(source, at).end()
            found.append(Token(source[at:end], at, end))
            at = end
    return found


def end_of_comment(source, at, block_comment):
    depth = 0
    marks = re.compile("|".join(map(re.escape, block_comment)))
    while mark := marks.search(source, at):
        at = mark.end()
        depth += 1 if mark[0] == block_comment[0] else -1
        if depth == 0:
            return at
    return len(source)


def rattle_tokens(source):
    return tokens_of(source, RATTLE, "//", ("/*", "*/"))


def antt_tokens(source):
    return tokens_of(source, ANTT, "--", ("{-", "-}"))


def clause_text(source):
    """The antt of a clause, with one space between its words. Its comments are Rattle's."""
    return antt_text(token.text for token in tokens_of(source, ANTT, "//", ("/*", "*/")))


def antt_text(words):
    text = " ".join(words)
    return re.sub(r"([(\[]) | (?=[)\],;]|(?<=\) )\.)", r"\1", text)


def end_of_brackets(tokens, at):
    """The place behind the bracket that closes the one at this place."""
    depth = 0
    for place in range(at, len(tokens)):
        if tokens[place].text in OPENING:
            depth += 1
        elif tokens[place].text in CLOSING:
            depth -= 1
        if depth == 0:
            return place + 1
    raise ValueError(f"a bracket isn't closed: {' '.join(token.text for token in tokens[at:at + 9])} ..")
