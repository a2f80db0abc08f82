"""Hosts over the real `stc`: faults, deaths and replays, changes, what is taken back, the examples, and the console."""
import asyncio
import os
import pty
import random
import re
import select
import shutil
import signal
import subprocess
import time
import pytest
from conftest import BLOCKS, FILE, HOST, LEAVES, STATE, Client, Host, lines_of, needs, state, wait_for
from stchost import journal
from stchost.plant import JournalTable
from stchost.replay import restore

pytestmark = needs("aiohttp")
COMMANDS = ["write Main.Band {}", "force Main.Q {}", "release Main.Q", "write Main.Go TRUE", "write Main.Go FALSE",
            "force Main.Raw {}", "release Main.Raw", "undo", "write Main.Total {}", "reset"]

def test_a_fault_halts_and_the_host_goes_on_serving(host: Host, client: Client) -> None:
    client.until(lambda status: status["moment"] > 50 and status["driven"].get("Main.Horn") == "FALSE")
    assert client.line("write Main.Z 0") == "ok"
    assert client.until(lambda status: status["state"] == "halted")["fault"] == "F2 Main line 16"
    status = client.until(lambda status: status["driven"] == {"Main.Lamp": "FALSE", "Main.Horn": "TRUE"})
    client.until(lambda later: later["cycles"] > status["cycles"] + 5)
    assert client.line("status").startswith("halted F2 Main line 16")
    assert "the program is halted F2 Main line 16" in host.console("show Main.Z")
    assert client.lines("show Main.Z", "reset") == ["Main.Z = 0", "ok"]
    status = client.until(lambda status: status["state"] == "running")
    client.until(lambda later: later["moment"] > status["moment"] and later["driven"]["Main.Horn"] == "FALSE")
    assert "Test: halted F2 Main line 16\n" in host.stop()

def test_kills_at_random_moments_lose_nothing(host: Host) -> None:
    chance = random.Random(7)

    def controllers() -> set[int]:
        """The process ids of this host's sessions with `stc`."""
        said = subprocess.run(["ps", "-o", "pid=,args=", "--ppid", str(host.process.pid)], capture_output=True, text=True).stdout
        return {int(line.split()[0]) for line in said.splitlines() if " run " in line}

    for turn in range(6):
        client = host.client()
        for _ in range(chance.randrange(3, 12)):
            client.line(chance.choice(COMMANDS).format(chance.randrange(100)))
            time.sleep(chance.random() * 0.05)
        time.sleep(chance.random() * 0.2)
        if turn % 2:
            before = controllers()
            os.kill(min(before), signal.SIGKILL)
            wait_for(lambda: controllers() - before)
        else:
            host.stop(signal.SIGKILL)
            assert host.replayed() == state(*lines_of(host.journal))
            host.start()
    client = host.client()
    client.line("hold")
    client.until(lambda status: status["state"] == "held")
    assert client.lines(*STATE) == state(*lines_of(host.journal))
    assert len(lines_of(host.journal)[1]) > 100

def test_a_journal_cut_after_each_byte_of_its_last_records(host: Host, client: Client, tmp_path) -> None:
    client.lines("force Main.Q 5", "write Main.Band 3", "write Main.Nope 1")
    host.stop()
    path, cut = sorted(host.journal.iterdir())[-1], tmp_path / "cut"
    data, text = path.read_bytes(), lines_of(host.journal)[0]
    place = data.rfind(b"\n", 0, data.rfind(b"anna"))

    async def restored() -> tuple[list[str], int]:
        replay = await restore(cut)
        shown = await replay.session.exchange(STATE)
        await replay.close()
        return shown, replay.records

    for end in range(place - 60, min(len(data), place + 250) + 1):
        shutil.rmtree(cut, ignore_errors=True)
        shutil.copytree(host.journal, cut)
        (cut / path.name).write_bytes(data[:end])
        lines, (shown, records) = lines_of(cut)[1], asyncio.run(restored())
        assert shown == state(text, lines), end
        again = journal.Journal(cut, JournalTable("never", 1 << 20, 1 << 30))
        again.resume(records)
        again.append(journal.Record("scan 1000000"))
        again.close()
        assert lines_of(cut)[1] == [*lines, "scan 1000000"] and len(list(journal.read(cut))) == records + 1

def test_a_replay_shows_any_moment_but_not_of_a_damaged_journal(host: Host) -> None:
    wait_for(lambda: len(lines_of(host.journal)[1]) > 20)
    host.stop()
    text, lines = lines_of(host.journal)
    moments = [int(line.split()[1]) for line in lines]
    assert moments == sorted(moments)
    at = moments[len(moments) // 2]
    wanted = state(text, [line for line in lines if int(line.split()[1]) <= at])
    assert host.replayed("--at", str(at)) == wanted
    assert host.replayed("--at", str(at), "ticks", "cv")[1:] == [row for row in wanted if "Ticks.CV" in row]
    path = sorted(host.journal.iterdir())[-1]
    data = bytearray(path.read_bytes())
    place = data.find(b"\n", len(data) // 2) + 12
    data[place] ^= 1
    path.write_bytes(data)
    assert f"from byte {data.rfind(10, 0, place) + 1} on: its checksum doesn't fit" in host.tool("run", host.plant, status=1)

def test_a_reset_lets_a_replay_begin_there(host: Host, client: Client) -> None:
    client.line("force Main.Band 44")
    time.sleep(0.3)
    client.lines("reset", "write Main.Total 9")
    time.sleep(0.2)
    host.stop(signal.SIGKILL)
    first, second = journal.bases(host.journal).items()
    assert host.replayed() == state(*lines_of(host.journal)) and second[1].line.split("\n")[0].endswith(" Main.Band:=44")
    for number, _, path in journal.pieces(host.journal):
        if number < second[0]:
            path.unlink()
    said = host.tool("replay", str(host.journal), "--at", "1", status=1)
    assert first[1].moment == 0 and f"can go back to moment {second[1].moment}, and no further" in said

def test_beyond_its_limit_the_journal_says_that_it_does_not_reach_back(make_host) -> None:
    host = make_host(file=FILE.replace("piece = 100000", "piece = 4096, limit = 65536"))
    client = host.client()
    assert set(client.lines(*["write Main." + "A" * 4_000 + " 1"] * 20)) == {"refused O1"}
    client.until(lambda status: not status["journal"]["reaches"])
    host.stop()
    assert sum(path.stat().st_size for path in host.journal.iterdir()) <= 65_536
    assert "doesn't reach back" in host.tool("run", host.plant, status=1)
    host.start("--fresh")

def test_a_change_does_what_its_preview_says_and_is_taken_back_exactly(make_host) -> None:
    host = make_host(file=FILE.replace("piece = 100000", "piece = 4096"))
    client, new = host.client(), BLOCKS.replace("N := N + 1;", "").replace("Delay : TON;", "Delay : TOF;")
    new = new.replace("N : DINT;", "Number : DINT; Extra : ARRAY[1..40] OF BOOL;").replace("Band : INT := 7; ", "")
    assert client.lines("force Main.Band 5", "force Main.Q 9", "force Main.N 1000") == ["ok"] * 3
    client.until(lambda status: status["forces"] == 3)
    time.sleep(0.3)
    found = client.ask("preview Main.N=Main.Number", new)
    for said in ("renamed: `Main.N` is `Main.Number`", "dropped: `Main.Delay.IN`", "`Main.Extra[40]`", "lost: `Main.Band` = 5"):
        assert said in found["said"], found
    assert found["reply"].endswith(" dropped 7 new 47") and client.line("change") == found["reply"]
    assert client.lines("show Main.Number", "show Main.Band") == ["Main.Number = 1000 forced", "refused O1"]
    client.until(lambda status: status["journal"]["pieces"] > 3)
    number = next(row[0] for row in client.ask("log")["rows"] if row[3].startswith("change"))
    answer = client.ask(f"takeback {number}")
    assert answer["reply"] == "taken back" and answer["rows"] == []
    client.line("hold")
    now = client.lines(*STATE)
    assert now == state(*lines_of(host.journal, {number})) and "Main.Band = 5 forced" in now
    host.stop(signal.SIGKILL)
    host.start()
    assert host.client().line("show Main.Band") == "Main.Band = 5 forced"

def test_what_is_done_while_scans_are_held_is_undone_exactly(host: Host, client: Client) -> None:
    client.line("hold")
    before = client.lines(*STATE)
    assert client.line("preview", BLOCKS.replace("Z : INT := 1;", "Z : INT := 1; More : INT;")).endswith("dropped 0 new 1")
    assert client.lines("force Main.Q 3", "write Main.Band 1") == ["ok", "ok"]
    assert client.line("change").endswith("dropped 0 new 1")
    assert client.until(lambda status: status["undos"] == 3)["undo"] == "change"
    wait_for(lambda: host.replayed()[0].endswith(" forces 1 undo 3"))  # so has a replay
    assert client.lines("undo", "undo", "undo") == ["ok"] * 3
    assert client.lines(*STATE) == before
    assert client.lines("undo", "go") == ["refused O7", "going on"]
    client.until(lambda status: status["state"] == "running")

@pytest.mark.parametrize("old, new, why", [
    ("10 / Z;", "10 / Zz;", "refused C1 line 16"),
    (" Raw : INT;", " END_VAR VAR Raw : INT; END_VAR VAR_INPUT", "Main.Raw is no VAR_INPUT of the program: refused O12"),
    ("Raw : INT;", "Raw : SINT;", "Main.Raw, which the plant's file connects, would get another type"),
    ("Raw : INT;", "", "the program has no Main.Raw, written like this, which the plant's file connects")])
def test_a_text_that_is_refused_says_why_and_changes_nothing(host: Host, client: Client, old: str, new: str, why: str) -> None:
    found = client.ask("preview", BLOCKS.replace(old, new).replace("Raw + 1", "1"))
    assert found["bad"] and found["reply"] == why and ("10 / Zz" not in new or "Q := 10 / Zz;" in found["said"])
    for line in ("change", "scan 99999999", "show", " ", "write Main.Q 1\nreset"):
        assert client.ask(line)["bad"], line
    assert lines_of(host.journal)[0] == BLOCKS and len(LEAVES) > 20

@pytest.mark.parametrize("name, line, path", [("tank", "write Main.Acknowledge FALSE", "Main.Pump"),
                                              ("conveyor", "write Main.Start TRUE", "Main.Barrier"),
                                              ("lights", "write Main.Button TRUE", "Main.Green")])
def test_the_examples_run(make_host, name: str, line: str, path: str) -> None:
    file = (HOST.parent / "examples" / f"{name}.toml").read_text().replace(f'"{name}.st"', '"plant.st"')
    for table, port in (("page", "PAGE_PORT"), ("server", "MODBUS_PORT")):
        file = re.sub(rf"(\[{table}\]\nport = )\d+", rf"\1{port}", file)
    client = make_host((HOST.parent / "examples" / f"{name}.st").read_text(), file).client()
    assert client.line(line) == "ok"
    client.ask(f"watch {path}")
    for value in ("TRUE", "FALSE"):
        client.next(lambda news: news.get("values", {}).get(path, [""])[0] == value)

@needs("prompt_toolkit")
def test_a_script(host: Host) -> None:
    (host.folder / "new.st").write_text(BLOCKS.replace("Band : INT := 7;", "Width : INT := 7; More : BOOL;"))
    (host.folder / "bad.st").write_text(BLOCKS + "X")
    lines = ["# a comment", "force Main.Band 9", "list band", f"preview {host.folder}/bad.st",
             f"change {host.folder}/new.st Main.Band=Main.Width", "show main.width", "hold", "write Main.Width 1", "undo",
             "release Main.Q", "write Main.Q 40000", "show Main.Nope", "go", f"change {host.folder}/none.st", "takeback x",
             "watch Main.Ticks.CV", "quit", "show Main.Never"]
    out = host.console("\n".join(lines), status=3)
    for wanted in ("ok\nMain.Band INT 9 forced\n1 variables\n", "S2", "renamed: `Main.Band` is `Main.Width`\n",
                   "new: `Main.More`\n", "dropped 0 new 1\n", "Main.Width = 9 forced\n", "held\n", "refused O4", "refused O5",
                   "refused O3", "refused O1", "going on\n", "none.st", "what belongs behind `takeback`"):
        assert wanted in out, out
    assert "Never" not in out

@needs("prompt_toolkit")
def test_the_prompt_has_history_completion_and_what_is_watched(host: Host) -> None:
    (host.folder / "new.st").write_text(BLOCKS.replace("Band", "Width"))
    screen, terminal = pty.openpty()
    console = subprocess.Popen([HOST / "console", host.plant], stdin=terminal, stdout=terminal, stderr=terminal)
    for keys, words in [("", "Test>"), ("forc\t", "force"), (" main.ba\t", "Main.Band"), (" 9\r", r"ok\W.*Test>"),
                        ("show Main.Band\r", "Main.Band = 9 forced.*Test>"), ("\x1b[A\x1b[A\r", r"ok\W.*Test>"),
                        (f"change {host.folder}/new.st Main.Band=Main.Width\r", "dropped 0 new 0.*Test>"),
                        ("show main.wi\t", "Main.Width"), ("\r", "= 9 forced.*Test>"),
                        ("watch Main.N\r", r"Main.N = \d+\s+Main.N = \d+.*Test>"), ("quit\r", "quit")]:
        os.write(screen, keys.encode())
        seen = ""
        while not re.search(words, seen, re.S):
            assert select.select([screen], [], [], 60)[0], seen
            seen += re.sub(r"\x1b\[[\d;?]*[A-Za-z]", "", os.read(screen, 65_536).decode(errors="replace"))
    assert console.wait(30) == 0
    assert "force Main.Band 9" in (host.folder / "plant.state" / "console.history").read_text()
