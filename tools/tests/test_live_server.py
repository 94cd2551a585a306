"""The server of a page that answers: who may ask it, what it has, what it does and when it ends; and the command that begins it."""

import asyncio
import json
import re
import signal
import socket
import subprocess
from contextlib import suppress
from pathlib import Path

import aiohttp
import pytest
from yarl import URL

from ctmtools.live.server import Server
from ctmtools.live.session import Session
from ctmtools.problem import Problem

from .examples import EXAMPLES
from .test_interrupt import started
from .test_live_session import CLOSURE, STUDY

PATIENCE = 120  # seconds, on a busy machine


@pytest.fixture
def path(tmp_path):
    found = tmp_path / "short.toml"
    found.write_text(STUDY)
    return found


def served(session, use, **terms):
    """What a use of a server gives, which is called with the server, its address and a client."""
    async def all_of_it():
        server = Server(session, **terms)
        address = await server.begin()
        try:
            async with aiohttp.ClientSession() as client:
                return await asyncio.wait_for(use(server, address, client), PATIENCE)
        finally:
            await server.end()
    return asyncio.run(all_of_it())


def joined(client, address):
    return client.ws_connect(f"{address}socket", origin=address.rsplit("/", 2)[0], max_msg_size=0)


async def heard(page, kind, of=lambda message: True):
    """The next message of a kind, and of what is asked of it; of one with arrays its head."""
    return (await heard_each(page, **{kind: of}))[0]


async def heard_each(page, /, **wanted):
    """The next message of each kind that has what is asked of it, in whichever order they come."""
    found = {}
    while len(found) < len(wanted):
        received = await page.receive()
        assert received.type in (aiohttp.WSMsgType.TEXT, aiohttp.WSMsgType.BINARY), received
        content = received.data if isinstance(received.data, str) else received.data[4:4 + int.from_bytes(received.data[:4], "little")]
        message = json.loads(content)
        kind = message["kind"]
        if kind in wanted and kind not in found and wanted[kind](message):
            found[kind] = message
    return [found[kind] for kind in wanted]


def test_who_may_ask(path, program):
    async def use(server, address, client):
        own = address.rsplit("/", 2)[0]
        found = {}
        for name, url, headers in [
                ("own", address, {}), ("own module", f"{address}live.js", {"Origin": own}), ("no secret", f"{own}/", {}),
                ("wrong secret", f"{own}/{'x' * 32}/", {}), ("another host", address, {"Host": "evil.example"}),
                ("another port", address, {"Host": "127.0.0.1:1"}), ("another origin", address, {"Origin": "http://evil.example"}),
                ("null", address, {"Origin": "null"}), ("no file of its own", f"{address}short.toml", {}),
                ("a file above", URL(f"{address}..%2f..%2fetc%2fpasswd", encoded=True), {}), ("a socket of nobody", f"{address}socket", {})]:
            async with client.get(url, headers=headers) as answer:
                found[name] = answer.status
                policy = answer.headers.get("Content-Security-Policy", "")
                assert answer.headers.get("Cache-Control") == "no-store" or answer.status == 404
                if name == "own":
                    assert "default-src 'none'" in policy and "script-src 'self'" in policy and "unsafe" not in policy
        with pytest.raises(aiohttp.WSServerHandshakeError):
            async with client.ws_connect(f"{address}socket", origin="http://evil.example"):
                pass
        return found
    assert served(Session.of_file(path), use) == {
        "own": 200, "own module": 200, "no secret": 403, "wrong secret": 403, "another host": 403, "another port": 403,
        "another origin": 403, "null": 403, "no file of its own": 404, "a file above": 404, "a socket of nobody": 403}


def test_it_listens_on_the_loopback_address_alone(path, program):
    async def use(server, address, client):
        return [site._server.sockets[0].getsockname()[0] for site in server._runner.sites]
    assert served(Session.of_file(path), use) == ["127.0.0.1"]


def test_two_pages_see_each_other_s_changes(path, program):
    async def use(server, address, client):
        async with joined(client, address) as one, joined(client, address) as two:
            await heard(one, "page")
            await one.send_json({"do": "type", "key": "roads.m.lanes", "text": "3"})
            seen = await heard(two, "study", lambda message: message["version"] == 1)
            await heard(two, "page", lambda message: message["version"] == 1)
            line = await heard(two, "line", lambda message: len(message["rows"]) > 1)
            return seen, line
    seen, line = served(Session.of_file(path), use)
    assert "lanes = 3" in seen["text"] and seen["undo"] and not seen["saved"]
    assert line["against"] == "as opened" and line["rows"][0][:2] == ["Delay", "vehicle-hours"]


def test_a_fault_keeps_the_last_picture_and_is_told_at_its_field(path, program):
    async def use(server, address, client):
        async with joined(client, address) as page:
            await heard(page, "page")
            await page.send_json({"do": "type", "key": "lane.wave_speed", "text": "200"})
            fault = await heard(page, "fault", lambda message: message["fault"])
            await page.send_json({"do": "undo"})
            return fault["fault"], await heard(page, "fault", lambda message: message["version"] == 2)
    fault, mended = served(Session.of_file(path), use)
    assert "must be at most the free-flow speed" in fault["line"] and mended["fault"] is None


def test_a_study_that_cannot_be_read_opens_with_its_text(path, program):
    path.write_text(STUDY.replace("lanes = 2", "lanes = "))

    async def use(server, address, client):
        async with joined(client, address) as page:
            study = await heard(page, "study")
            await page.send_json({"do": "text", "text": STUDY})
            await heard(page, "page")
            return study
    study = served(Session.of_file(path), use)
    assert "lanes = \n" in study["text"].replace("lanes =   #", "lanes = \n#") and "line 16" in study["unreadable"]


def test_of_many_changes_the_last_is_drawn_and_few_of_the_others(path, program):
    async def use(server, address, client):
        async with joined(client, address) as page:
            await heard(page, "page")
            for flow in range(40):
                await page.send_json({"do": "change", "patches": [["gates.on.capacity", 1000 + flow]], "group": "drag"})
            drawn = []
            while not drawn or drawn[-1] < 40:
                drawn.append((await heard(page, "line"))["version"])
            return drawn, server.session
    drawn, session = served(Session.of_file(path), use)
    assert drawn == sorted(drawn) and len(drawn) < 30
    session.undo()
    assert session.text == STUDY


@pytest.mark.parametrize("order", ["no JSON", "[]", '{"do": "nothing"}', '{"do": "change"}', '{"do": "change", "patches": [["closures.9", null]]}',
                                   '{"do": "type", "key": "roads.m", "text": "["}', '{"do": "take", "name": "none"}'])
def test_what_cannot_be_done_is_refused_and_nothing_changes(path, program, order):
    async def use(server, address, client):
        async with joined(client, address) as page:
            await page.send_str(order)
            return await heard(page, "refused"), server.session.text
    refused, text = served(Session.of_file(path), use)
    assert refused["line"] and text == STUDY


def test_files_are_written_beside_the_study_and_over_none_of_others(path, program):
    other = path.with_suffix(".html")
    other.write_text("mine")

    async def use(server, address, client):
        async with joined(client, address) as page:
            await page.send_json({"do": "write", "what": "report"})
            written = await heard(page, "written")
            await page.send_json({"do": "write", "what": "page"})
            return written, await heard(page, "refused")
    written, refused = served(Session.of_file(path), use)
    assert "short.report is written" in written["line"] and "isn't what this command makes" in refused["line"]
    assert other.read_text() == "mine" and {found.name for found in path.parent.iterdir()} == \
        {"short.toml", "short.html", "short.report", "short.csv", "short.units.json"}


def test_plans_stand_in_a_table(path, program):
    async def use(server, address, client):
        async with joined(client, address) as page:
            await page.send_json({"do": "change", "patches": [["closures.+", CLOSURE]]})
            await page.send_json({"do": "keep", "name": "closed"})
            return await heard(page, "plans", lambda message: len(message["rows"]) == 3)
    rows = {row["name"]: row["values"] for row in served(Session.of_file(path), use)["rows"]}
    # 3,600 vehicles/h come, and one of two lanes passes 2,160 until 06:05: then delay is more, and both are at hand.
    assert rows["closed"] == rows["at hand"] and rows["closed"][0] > rows["as opened"][0] == 0


def test_a_change_on_the_disk_is_noticed(path, program):
    async def use(server, address, client):
        async with joined(client, address) as page:
            await heard(page, "study")
            path.write_text(STUDY + "# mine\n")
            changed = await heard(page, "study", lambda message: message["disk"] == "changed")
            await page.send_json({"do": "save"})
            return changed, await heard(page, "refused")
    _, refused = served(Session.of_file(path), use)
    assert "was changed meanwhile" in refused["line"] and path.read_text().endswith("# mine\n")


def test_it_ends_some_time_after_its_last_page(path, program):
    async def use(server, address, client):
        async with joined(client, address):
            await asyncio.sleep(0.3)
            assert not server.ended.is_set()
        async with joined(client, address):  # another one in time keeps it
            await asyncio.sleep(0.3)
            assert not server.ended.is_set()
        await server.last()
        return True
    assert served(Session.of_file(path), use, idle=0.2)


def test_a_port_that_is_taken(path, tool):
    with socket.socket() as other:
        other.bind(("127.0.0.1", 0))
        other.listen()
        port = other.getsockname()[1]
        assert tool("open", path, "--no-browser", "--port", port) == \
            (2, "", f"ctm-tools: --port {port}: is taken by another program; name another one, or none\n")


def test_no_aiohttp(path, tool, monkeypatch):
    import sys

    monkeypatch.setitem(sys.modules, "aiohttp", None)
    monkeypatch.delitem(sys.modules, "ctmtools.live.server")
    status, out, err = tool("open", path, "--no-browser")
    assert (status, out) == (2, "") and err.count("\n") == 1 and "python3-aiohttp" in err


@pytest.mark.parametrize("words, line", [
    (["none.toml"], "none.toml: no such file or directory"), (["a.toml", "b.toml", "c.toml"], "at most two studies"),
    (["some.report"], "this is a report, and a study is wanted")])
def test_what_is_no_study(tool, tmp_path, words, line):
    (tmp_path / "some.report").write_text("report,1,1\n")
    status, out, err = tool("open", *words)
    assert (status, out) == (2, "") and line in err and err.count("\n") == 1


def test_a_new_study_takes_no_name_that_is_taken(tmp_path, monkeypatch):
    from ctmtools.commands.open import _free

    monkeypatch.chdir(tmp_path)
    (tmp_path / "study.toml").write_text("")
    assert str(_free("study")) == "study-2.toml"


def test_no_browser(monkeypatch, capfd):
    import webbrowser

    from ctmtools.commands.open import _open_browser

    monkeypatch.setattr(webbrowser, "get", lambda: webbrowser.GenericBrowser("false"))  # as w3m, which takes the terminal
    _open_browser("http://127.0.0.1:1/")
    assert capfd.readouterr().err == "no browser was found; open the address in one\n"


def test_changes_that_were_not_saved_are_kept(tmp_path, capfd):
    from ctmtools.commands.open import _keep_unsaved

    for _ in range(2):
        _keep_unsaved(tmp_path / "short.toml", STUDY)
    assert (tmp_path / "short.unsaved-1.toml").read_text() == (tmp_path / "short.unsaved-2.toml").read_text() == STUDY
    assert "short.unsaved-2.toml" in capfd.readouterr().err
    with pytest.raises(Problem, match="can't be kept"):
        _keep_unsaved(tmp_path / "none" / "short.toml", STUDY)


@pytest.mark.parametrize("number, status", [(signal.SIGINT, 130), (signal.SIGTERM, -signal.SIGTERM), (signal.SIGHUP, -signal.SIGHUP)])
def test_what_ends_the_server_keeps_what_was_not_saved(path, program, number, status):
    async def change(address):
        async with aiohttp.ClientSession() as client, joined(client, address) as page:
            await page.send_json({"do": "type", "key": "roads.m.lanes", "text": "3"})
            await heard(page, "study", lambda message: message["version"] == 1)
            process.send_signal(number)

    with started(path.parent, ["open", path, "--no-browser"], program, stdout=subprocess.PIPE, stderr=subprocess.PIPE) as process:
        asyncio.run(change(re.search(r"http://\S+", process.stdout.readline())[0]))
        out, err = process.communicate(timeout=PATIENCE)
    assert process.returncode == status and "short.unsaved-1.toml" in err and "closed a minute ago" not in out
    assert (path.parent / "short.unsaved-1.toml").read_text() == STUDY.replace("lanes = 2", "lanes = 3") and path.read_text() == STUDY


@pytest.mark.parametrize("request_line", [b"\x16\x03\x01\x02\xff\x00", b"GET /%ff%fe/ HTTP/1.1", b"GET /\xff\xfe/ HTTP/1.1", b"GET //[ HTTP/1.1"])
def test_what_isnt_meant_for_it_leaves_no_traceback(path, program, caplog, request_line):
    async def use(server, address, client):
        reader, writer = await asyncio.open_connection("127.0.0.1", server.port)
        writer.write(request_line + b"\r\nHost: 127.0.0.1:%d\r\n\r\n" % server.port)
        status = (await reader.readline()).split()[1]
        writer.close()
        async with client.get(address) as answer:
            return status, answer.status
    status, after = served(Session.of_file(path), use)
    assert status in (b"400", b"403") and after == 200
    assert not [record for record in caplog.records if record.exc_info]


@pytest.mark.parametrize("text", ["[" * 100_000, '{"do":' * 100_000, "[]", '{"do": ["undo"]}', '{"do": "change", "patches": [["title"]]}',
                                  '{"do": "change", "patches": [["title", 1e999]]}', '{"do": "text"}'])
def test_an_order_that_is_none_is_refused_and_the_page_stays(path, program, caplog, text):
    async def use(server, address, client):
        async with joined(client, address) as page:
            await page.send_str(text)
            refused = await heard(page, "refused")
            await page.send_str(json.dumps({"do": "change", "patches": [["title", "Still here"]]}))
            await heard(page, "study", lambda study: "Still here" in study["text"])
            return refused["line"]
    assert served(Session.of_file(path), use)
    assert not [record for record in caplog.records if record.exc_info]


def test_a_text_nested_too_deeply_is_a_fault_and_the_next_is_drawn(path, program):
    async def use(server, address, client):
        async with joined(client, address) as page:
            await page.send_str(json.dumps({"do": "text", "text": f"a = {'[' * 100_000}"}))
            await heard(page, "study", lambda study: "nested too deeply" in (study["unreadable"] or ""))
            await heard(page, "fault", lambda message: message["fault"])
            await page.send_str(json.dumps({"do": "undo"}))
            await heard(page, "fault", lambda message: message["fault"] is None and message["version"] == 2)
    served(Session.of_file(path), use)


def test_a_fault_of_the_tools_is_told_and_the_next_text_is_drawn(path, program, monkeypatch):
    async def use(server, address, client):
        whole = server.drawing.results.of
        monkeypatch.setattr(server.drawing.results, "of", lambda text: whole(text) if "Odd" not in text else [][1])
        async with joined(client, address) as page:
            await page.send_str(json.dumps({"do": "change", "patches": [["title", "Odd"]]}))
            fault = await heard(page, "fault", lambda message: message["fault"])
            await page.send_str(json.dumps({"do": "undo"}))
            await heard(page, "fault", lambda message: message["fault"] is None and message["version"] == 2)
            return fault["fault"]["line"]
    assert "a fault of these tools, IndexError" in served(Session.of_file(path), use)


UNCERTAIN = """
[[uncertain]]
key = "demand"
factor = "normal"
mean = 1
deviation = 0.1
"""


@pytest.mark.parametrize("name, line", [("draw", "100 draws, seed 1"), ("assign", "trips"), ("nothing", "there is no work nothing")])
def test_long_work_says_what_it_comes_to(path, program, name, line):
    path.write_text(STUDY + UNCERTAIN)

    async def use(server, address, client):
        async with joined(client, address) as page:
            await page.send_json({"do": "begin", "name": name})
            return await heard(page, "refused") if name == "nothing" else await heard(page, "work", lambda message: not message["running"])
    found = served(Session.of_file(path), use)
    assert line in (found["line"] if name == "nothing" else found["told"])
    assert name != "draw" or any("delay (vehicle-hours)" in row for row in found["lines"]), found
    assert [one.name for one in path.parent.iterdir()] == ["short.toml"]


def test_long_work_is_stopped_with_its_process_and_one_is_done_at_a_time(path, program):
    path.write_text(STUDY + UNCERTAIN)

    async def use(server, address, client):
        async with joined(client, address) as page:
            await page.send_json({"do": "begin", "name": "draw"})
            await heard(page, "work", lambda message: message["told"].endswith("of 100 runs"))
            assert workers(path)
            await page.send_json({"do": "begin", "name": "draw"})
            refused = await heard(page, "refused")
            await page.send_json({"do": "stop"})
            stopped = await heard(page, "work", lambda message: not message["running"])
            return refused["line"], stopped["told"], workers(path)
    assert served(Session.of_file(path), use) == ("other work is being done; stop it first", "stopped; nothing is kept", [])


def workers(path):
    """The processes whose words name a study."""
    found = []
    for words in Path("/proc").glob("[0-9]*/cmdline"):
        with suppress(OSError):
            if str(path) in words.read_text().split("\0"):
                found.append(words.parent.name)
    return found


def test_an_assignment_gives_a_plan_and_stands_beside_the_study(path, program):
    path.write_text((EXAMPLES / "bypass.toml").read_text())

    async def use(server, address, client):
        async with joined(client, address) as page:
            await page.send_json({"do": "begin", "name": "assign"})
            said, plans = await heard_each(page, work=lambda message: not message["running"],
                                           plans=lambda message: len(message["rows"]) == 3)
            return said["told"], [row["name"] for row in plans["rows"]], server.session.plans["assigned"]
    told, names, text = served(Session.of_file(path), use)
    assert "short.assigned.toml is written" in told and names == ["as opened", "assigned", "at hand"]
    assert text == (path.parent / "short.assigned.toml").read_text()
