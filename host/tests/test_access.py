"""Who may look and act, and that floods and slow readers delay no scan."""
import asyncio
import contextlib
import http.client
import os
import re
import socket
import time
from concurrent.futures import ThreadPoolExecutor
from functools import partial
import pytest
from conftest import ACT, FILE, HOST, LOOK, Host, ended, needs, wait_for
from stchost import Trouble, access, plant as plants

pytestmark = needs("aiohttp")

def get(host: Host, path: str, **headers: str) -> tuple[int, str]:
    with contextlib.closing(http.client.HTTPConnection("127.0.0.1", host.port, timeout=20)) as connection:
        connection.request("GET", path, headers=headers)
        response = connection.getresponse()
        return response.status, response.read().decode()

def test_without_a_token_nothing_is_shown_and_one_to_look_does_not_act(host: Host) -> None:
    for path in ("/", "/page.js", "/page.css"):
        status, text = get(host, path)
        assert status == 200 and "Main" not in text.replace("Main.Old=Main.New", "")
    for token in ("", "x" * 32, ACT[:-1], "system"):
        assert host.client(token).hello == {"refused": "this token isn't known"}
    client = host.client(LOOK)
    assert client.line("show Main.Band") == "Main.Band = 7"
    assert "PROGRAM Main" in client.ask("program")["text"]
    for line in ("write Main.Q 1", "hold", "go", "change", "takeback 1", "preview"):
        assert client.ask(line) == {"reply": "this token is to look, not to act", "bad": True}
    for path, status, headers in [("/", 403, {"Origin": "http://evil.example"}), ("/live", 403, {"Origin": "null"}),
                                  ("/", 403, {"Host": f"evil.example:{host.port}"}), ("/", 200, {"Origin": host.url})]:
        assert get(host, path, **headers)[0] == status

def test_wrong_tokens_wait_longer_each_time(monkeypatch: pytest.MonkeyPatch) -> None:
    gate, waits = access.Gate({ACT: access.Person("anna", True)}), []

    async def sleep(seconds: float) -> None:
        waits.append(seconds)

    monkeypatch.setattr(asyncio, "sleep", sleep)
    for token, address in [("wrong", "a")] * 7 + [(ACT, "a"), ("wrong", "b")]:
        assert (asyncio.run(gate.who(token, address)) is None) is (token == "wrong")
    assert waits == [0.5, 1, 2, 4, 8, 16, 20, 0.5]

def test_the_file_of_tokens_is_its_owners_alone(tmp_path) -> None:
    path = tmp_path / "tokens.toml"
    access.make(path)
    assert os.stat(path).st_mode & 0o777 == 0o600 and len(access.load(path)) == 2
    for text, mode, error in [("", 0o640, "others"), ('[act]\nx = "short"\n', 0o600, "16 letters"), ("[act", 0o600, "Expected")]:
        path.write_text(text)
        path.chmod(mode)
        with pytest.raises(Trouble, match=error):
            access.load(path)

@pytest.mark.parametrize("line, error", [
    ("cycle = 0", "`cycle` is from 1 to 60000"), ("cycle = 10\nspeed = 3", "there is no key `speed`"),
    ("", "`cycle` is missing"), ("cycle = true", "`cycle` is to be of type int"), ("cycle = ", "Invalid value"),
    ("cycle = 10\ninput = 3", "`input` is to be of type list"), ('cycle = 10\n[[output]]\npath = "Main.A"', "`fault` is missing"),
    ('cycle = 10\njournal = {sync = "often"}', "`sync` is one of"), ("cycle = 10\nserver = {map = [3]}", "a table is due"),
    ('cycle = 10\n[[input]]\npath = "Main.A"\ndevice = "d"', "there is no device"),
    ('cycle = 10\nserver = {allow = [{address = "::/0", functions = [7]}]}', "`functions` 1 is one of 1, 2, 3, 4, 5, 6, 15, 16"),
    ('cycle = 10\nserver = {allow = [{address = "here"}]}', "'here' does not appear to be an IPv4 or IPv6 network"),
    ('cycle = 10\nserver = {map = [{path = "Main.A", table = "coil", form = "INT16"}]}', "`form` doesn't fit the table coil")])
def test_a_plants_file_that_is_wrong_is_refused_with_its_place(tmp_path, line: str, error: str) -> None:
    (tmp_path / "p.toml").write_text('program = "p.st"\n' + line)
    with pytest.raises(Trouble, match=error):
        plants.load(tmp_path / "p.toml")

def test_a_program_without_what_is_connected_is_refused(make_host) -> None:
    host = make_host(file=FILE.replace('{path = "Main.Go"}', '{path = "Main.Band"}'), start=False)
    assert "Main.Band is no VAR_INPUT of the program: refused O12" in host.tool("run", host.plant, status=1)

def test_floods_slow_readers_and_half_open_connections_delay_no_scan(make_host) -> None:
    host = make_host(file=FILE.replace("refresh = 50", "refresh = 50, clients = 4"))

    def page(connection: http.client.HTTPConnection) -> bytes:
        connection.request("GET", "/page.js")
        return connection.getresponse().read()

    def flood(work) -> int:
        count = 0
        while time.monotonic() < until:
            with contextlib.suppress(OSError, http.client.HTTPException):
                count += bool(work())
        return count

    with host.undelayed(), ThreadPoolExecutor(6) as pool:
        idle = [socket.create_connection(("127.0.0.1", host.port)) for _ in range(40)]
        idle[0].sendall(b"GET / HTTP/1.1\r\nX: ")
        idle[1].sendall(b"\xff" * 100_000)
        idle[2].sendall(b"GET /page.js HTTP/1.1\r\nHost: 127.0.0.1:%d\r\n\r\n" % host.port * 500)  # it reads no answers
        until, clients = time.monotonic() + 4, [host.client(), host.client()]
        pages = [http.client.HTTPConnection("127.0.0.1", host.port, timeout=2) for _ in range(4)]
        works = [partial(page, made) for made in pages] + [partial(client.line, "write Main.Band 5") for client in clients]
        assert all(pool.map(flood, works))
        for made in idle + pages:
            made.close()

def test_connections_are_bounded_and_idle_ones_closed(make_host) -> None:
    host = make_host(file=FILE.replace("refresh = 50", "refresh = 50, clients = 1"))
    made = [socket.create_connection(("127.0.0.1", host.port)) for _ in range(150)]
    wait_for(lambda: sum(map(ended, made)) >= 20)
    assert sum(map(ended, made)) < 150
    wait_for(lambda: sum(map(ended, made)) == 150)  # the others asked for nothing in time
    assert get(host, "/")[0] == 200

def test_sizes_and_numbers_are_bounded(make_host) -> None:
    host = make_host(file=FILE.replace("refresh = 50", "refresh = 50, clients = 2"))
    client, other = host.client(), host.client(LOOK)
    assert host.client().hello == {"refused": "too many clients"}
    assert client.line("preview", "x" * 1_200_000) == "refused S4 line 1"
    for bad in ("", "__init__", "watch\0", "log x", "scan 1", "show A\nreset", "show " + "A" * 5_000):
        assert other.ask(bad)["bad"] is True
    with contextlib.suppress(OSError):  # it is cut off
        other.run(other.live.send_str("x" * 100_000))
    assert client.line("show Main.Z") == "Main.Z = 1"

def test_the_manual_has_every_key() -> None:
    page = (HOST.parent / "docs" / "HOST.md").read_text()
    keys = {key for kind in vars(plants).values() for key in getattr(kind, "_fields", ())}
    assert len(keys) > 30
    assert [key for key in sorted(keys) if not re.search(rf"[`[.]{key}[`\]]", page)] == []
