"""The data of a page, read as its script reads them."""

import base64

import numpy


def cells_of(data, report=0):
    """The cells of a report of the page."""
    return data["networks"][data["reports"][report]["network"]]["cells"]


def decoded(data, name, report=0):
    """The values of density or flow: for each cell by its name those of all frames."""
    found, cells = data["reports"][report][name], cells_of(data, report)
    parts = numpy.frombuffer(base64.b64decode(found["text"]), dtype="<u2").reshape(len(cells), -1)
    return {cell["name"]: row / 65535 * most for cell, row, most in zip(cells, parts, found["most"])}


def queued(data, report=0):
    """For each cell whether it stands in a queue, in all frames."""
    cells, frames = cells_of(data, report), len(data["times"]) - 1
    bits = numpy.unpackbits(numpy.frombuffer(base64.b64decode(data["reports"][report]["queued"]), dtype=numpy.uint8))
    rows = bits[:len(cells) * frames].reshape(len(cells), frames).astype(bool)
    return {cell["name"]: row for cell, row in zip(cells, rows)}


def figures(table, report=0):
    """The figures of each row of the table of roads, by name: length, delay, vehicles, delay of each, in queues, travel."""
    return {row["name"]: row["of"][report] for row in table["rows"]}
