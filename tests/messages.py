"""The lines that the program writes on standard error."""

WORDS = b"ctm: words refused\n"
TOO_LARGE = b"ctm: too large: input\n"
TOO_LARGE_RECORD = b"ctm: too large: record\n"
TOO_LARGE_SHOTS = b"ctm: too large: shots\n"
READ_FAULT = b"ctm: read fault\n"
WRITE_FAULT = b"ctm: write fault\n"


def fault(text):
    return b"ctm: network: record " + text.encode() + b"\n"
