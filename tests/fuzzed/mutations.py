"""Changes of a file's bytes, each by draws of a seed: of its numbers, words and lines as a careless hand makes them, and of single
bytes and long pieces as a hostile one does.
"""

import re

NUMBERS = (b"0", b"-0", b"1", b"-1", b"2", b"1.5", b"0.0000001", b"1e-320", b"60000", b"999999999", b"1000000000", b"1e9",
           b"4294967296", b"18446744073709551616", b"99999999999999999999999", b"1e308", b"1e999", b"nan", b"inf", b"-inf", b"1_000",
           b"0x10", b"07", b"25:61")
TEXTS = (b"", b" ", b"\0", b"\n", b"\r\n", b"\t", b"\x1b[31m", b"\x07", b"&#10;", b"&#27;", b"&lt;", b'"', b"'", b'"""', b"\\", b",", b";",
         b"=1+1", b"@SUM(A1)", b"-", b"#", b"]", b"}", b"\xff\xfe", b"\xef\xbb\xbf", "\u00e9\u202e\u2028".encode(), b"<a>", b"<!--", b"]]>",
         b"../../../etc/passwd", b"/dev/zero", b"/dev/full", b"<?xml version='1.0' encoding='x-no'?>")
# What is deep or long.
LONG = (b"a" * 100_000, b"[" * 100_000, b"{a=" * 100_000, b'{"a":' * 100_000, b"<a>" * 100_000, b"9" * 100_000, b"," * 100_000)
NUMBER = re.compile(rb"\d+(?:\.\d+)?")
WORD = re.compile(rb"[A-Za-z_]\w*")
MOST = 4_000_000  # bytes of what is made


def mutated(draw, content):
    """The content after some changes."""
    for _ in range(draw.choice((1, 1, 1, 2, 3, 5))):
        content = draw.choice(CHANGES)(draw, content)[:MOST]
    return content


def piece(draw, content, most=40):
    """The ends of a short piece."""
    begin = draw.randrange(len(content) + 1)
    return begin, min(len(content), begin + draw.randint(0, most))


def with_other(draw, content, pattern, others):
    """The content with another in the place of something of this pattern."""
    found = list(pattern.finditer(content))
    if not found:
        return content
    it = draw.choice(found)
    return content[:it.start()] + others(draw, it[0], found) + content[it.end():]


def other_number(draw, content):
    return with_other(draw, content, NUMBER, lambda draw, it, _: draw.choice((*NUMBERS, it + b"0" * draw.randint(1, 9), b"-" + it)))


def other_word(draw, content):
    return with_other(draw, content, WORD, lambda draw, it, found: draw.choice((draw.choice(found)[0], draw.choice(TEXTS), it.upper())))


def other_lines(draw, content):
    """The content with a line that is gone, twice, many times, or elsewhere."""
    lines = content.splitlines(keepends=True) or [b""]
    at, to = draw.randrange(len(lines)), draw.randrange(len(lines))
    times = draw.choice((0, 0, 2, 2, 1_000))
    if draw.random() < 0.4:
        lines[at], lines[to] = lines[to], lines[at]
    else:
        lines[at:at + 1] = [lines[at]] * times
    return b"".join(lines)


def other_bytes(draw, content):
    begin, end = piece(draw, content, 4)
    return content[:begin] + bytes(draw.randrange(256) for _ in range(draw.randint(0, 4))) + content[end:]


def without_a_piece(draw, content):
    begin, end = piece(draw, content, draw.choice((10, 100, len(content))))
    return content[:begin] + content[end:]


def with_a_text(draw, content):
    begin, end = piece(draw, content, draw.choice((0, 0, 10)))
    return content[:begin] + draw.choice(TEXTS if draw.random() < 0.9 else LONG) + content[end:]


def cut_off(draw, content):
    return content[:draw.randrange(len(content) + 1)]


CHANGES = (other_number, other_number, other_number, other_word, other_word, other_lines, other_lines, other_bytes, without_a_piece,
           with_a_text, with_a_text, cut_off)
