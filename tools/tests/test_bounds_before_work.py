"""What is too much is refused before anything is made of it."""

import gzip
import importlib
import os
import pkgutil
import re
import resource
import threading
import time
from pathlib import Path

import ctmtools
import pytest

from ctmtools import build, read_study
from ctmtools.detectors.formats import station_and_quantity
from ctmtools.detectors.table import text_of
from ctmtools.imports.sumo_net import check_root, read_xml
from ctmtools.files.reading import kind_of, read_bytes
from ctmtools.problem import Problem
from ctmtools.files.unpacking import MOST

from .examples import EXAMPLES

STUDY = (EXAMPLES / "bottleneck.toml").read_text()


@pytest.mark.parametrize("length, cells", [("60000", "240,000"), ("1e9", "4,000,000,000")])
def test_a_road_of_a_country_is_refused_before_its_cells_are_made(tmp_path, length, cells):
    text = STUDY.replace("length = 7.5", f"length = {length}")
    assert text != STUDY
    (tmp_path / "s.toml").write_text(text)
    before = resource.getrusage(resource.RUSAGE_SELF).ru_utime
    with pytest.raises(Problem) as found:
        build(read_study(tmp_path / "s.toml"))
    assert resource.getrusage(resource.RUSAGE_SELF).ru_utime - before < 2
    assert "roads.m.length: " in str(found.value) and f"make {cells} cells" in str(found.value)
    assert "are metres meant?" in str(found.value)


@pytest.fixture
def few():
    token = MOST.set(1)
    yield
    MOST.reset(token)


def test_packed_input_may_have_512_mib_as_the_pages_say():
    page = (Path(ctmtools.__file__).parents[1] / "docs" / "detectors.md").read_text()
    assert f"A file of more than {MOST.get()} MiB unpacked needs `--most-unpacked MIB`" in page


def test_packed_input_has_a_bound(tmp_path, few):
    path = tmp_path / "a.csv.gz"
    path.write_bytes(gzip.compress(b"0" * (1 << 20)))
    assert text_of(path) == "0" * (1 << 20)
    path.write_bytes(gzip.compress(b"0" * (1 << 20) + b"0"))
    with pytest.raises(Problem, match=r"a\.csv\.gz: unpacks to more than 1 MiB; where that is meant, --most-unpacked MIB"):
        text_of(path)


def test_a_packed_map_has_the_same_bound(tmp_path, few):
    path = tmp_path / "a.net.xml.gz"
    path.write_bytes(gzip.compress(b"<net>" + b" " * (2 << 20) + b"</net>"))
    assert check_root(path, "net").tag == "net"  # which reads the beginning alone
    with pytest.raises(Problem, match=r"a\.net\.xml\.gz: unpacks to more than 1 MiB"):
        read_xml(path, "net")


def test_the_option_raises_the_bound(tool, tmp_path):
    (tmp_path / "a.csv.gz").write_bytes(gzip.compress(b"time,flow\n" + b"\n" * (2 << 20)))
    status, _, err = tool("--most-unpacked", "1", "detectors", tmp_path / "a.csv.gz")
    assert status == 2 and "unpacks to more than 1 MiB" in err
    status, _, err = tool("--most-unpacked", "4", "detectors", tmp_path / "a.csv.gz")
    assert "unpacks to more" not in err
    status, _, err = tool("--most-unpacked", "0", "detectors", tmp_path / "a.csv.gz")
    assert status == 2 and "--most-unpacked" in err


@pytest.mark.parametrize("device", ["/dev/zero", "/dev/urandom"])
def test_a_device_without_an_end_is_refused(device):
    with pytest.raises(Problem, match=f"{device}: is a device, which has no end"):
        read_bytes(device)


def test_a_pipe_is_read_to_its_end(tmp_path):
    pipe = tmp_path / "pipe"
    os.mkfifo(pipe)
    writer = threading.Thread(target=lambda: pipe.write_bytes(b"text"))
    writer.start()
    assert read_bytes(pipe) == b"text"
    writer.join()
    assert read_bytes(os.devnull) == b""


def test_counts_of_a_device_are_refused(tool, tmp_path):
    text = (EXAMPLES / "detectors.toml").read_text().replace('"detectors-*.txt"', '"/dev/zero"')
    (tmp_path / "s.toml").write_text(text)
    status, _, err = tool("build", tmp_path / "s.toml", "--allow-files", "/dev")
    assert status == 2 and "/dev/zero is a pipe or a device, and a file is wanted" in err


def patterns():
    """Each pattern that stands at the top of a module of the tools, with its name."""
    for found in pkgutil.walk_packages(ctmtools.__path__, "ctmtools."):
        if not found.name.endswith("__main__"):
            module = importlib.import_module(found.name)
            for name, value in vars(module).items():
                for number, pattern in enumerate(value if isinstance(value, tuple) else [value]):
                    pattern = pattern[0] if isinstance(pattern, tuple) and pattern else pattern
                    if isinstance(pattern, re.Pattern):
                        yield pytest.param(pattern, id=f"{found.name.removeprefix('ctmtools.')}.{name} {number}")


@pytest.mark.parametrize("pattern", patterns())
def test_no_pattern_takes_longer_the_more_often_a_sign_stands_there(pattern):
    """Of 20,000 spaces or line feeds a pattern that tries each beginning with each end takes seconds."""
    for begin in "", "a", "1", "=", "[", "7:30", "#":
        for sign in " ", "\n", "\t", "[", "(", "1", "a", "_", "[ ", "a.", "# \n", '"':
            text = begin + sign * (20_000 // len(sign)) + "\x00"
            given = text if isinstance(pattern.pattern, str) else text.encode()
            begun = time.process_time()
            pattern.match(given)
            pattern.fullmatch(given)
            assert time.process_time() - begun < 0.5, repr(text[:5])


def test_a_file_of_line_feeds_is_a_study_by_its_key_alone():
    assert kind_of("it", b"\n" * 1_000_000 + b"step = ") == "a study"
    assert kind_of("it", b"\r\n \t" * 300_000) is None


def test_names_of_columns_and_lines_that_are_long_are_looked_at_no_further(tmp_path):
    assert station_and_quantity("a." * 100_000)[1] is None
    assert station_and_quantity("a" + " " * 100_000 + "b")[1] is None
    (tmp_path / "s.toml").write_text("step = " + " " * 100_000 + "[,")
    begun = time.process_time()
    with pytest.raises(Problem, match="line 1"):
        read_study(tmp_path / "s.toml")
    assert time.process_time() - begun < 2
