"""What the tests share: hosts in folders of their own, clients of them, sessions with `stc` that share nothing with the host."""
import asyncio
import contextlib
import fcntl
import signal
import socket
import subprocess
import sys
import tempfile
import time
from collections.abc import Callable, Collection, Iterator, Sequence
from pathlib import Path
from typing import Any
import pytest

HOST = Path(__file__).resolve().parents[1]
sys.path[:0] = [str(HOST), str(HOST / "tests")]
from stchost import packages  # noqa: E402
from stchost.session import program  # noqa: E402

ACT, LOOK = "anna-anna-anna-anna", "luca-luca-luca-luca"
BLOCKS = """FUNCTION_BLOCK Cycler
VAR_INPUT Go : BOOL; END_VAR VAR_OUTPUT Turns : INT; END_VAR
INITIAL_STEP Rest: END_STEP STEP Work: Count(P); END_STEP
TRANSITION FROM Rest TO Work := Rest.T >= T#70ms; END_TRANSITION
TRANSITION FROM Work TO Rest := Work.T >= T#40ms; END_TRANSITION
ACTION Count: Turns := Turns + 1; END_ACTION
END_FUNCTION_BLOCK
PROGRAM Main
VAR_INPUT Go, Raw_Ok : BOOL; Raw : INT; Count : UDINT; END_VAR
VAR_OUTPUT Lamp, Horn : BOOL; Speed : INT; Total : UDINT; END_VAR
VAR N : DINT; Z : INT := 1; Q : INT; Delay : TON; Ticks : CTU; Band : INT := 7; Cycle : Cycler; END_VAR
VAR Big : DINT := -70000; Age : TIME := T#90s; Small : SINT := -5; END_VAR
N := N + 1; Speed := Raw + 1; Total := Count + 1;
Delay(IN := Go, PT := T#300ms); Lamp := Delay.Q;
Ticks(CU := NOT Ticks.CU, PV := 100, R := FALSE); Cycle(Go := Go);
Q := 10 / Z;
END_PROGRAM
"""
FILE = """name = "Test"
program = "plant.st"
cycle = 10
priority = 20
trend = ["Main.N", "Main.Lamp"]
page = {port = PAGE_PORT, refresh = 50}
journal = {sync = "never", piece = 100000}
device = [{name = "sim", kind = "simulation", model = "tank"}]
input = [{path = "Main.Raw", device = "sim", name = "level"}, {path = "Main.Go"}]
output = [{path = "Main.Lamp", device = "sim", name = "pump", fault = "FALSE"},
          {path = "Main.Horn", device = "sim", name = "alarm", fault = "TRUE"}]
[server]
port = MODBUS_PORT
clients = 4
idle = 30
allow = [{address = "127.0.0.1", functions = [1, 2, 3, 4, 5, 6, 15, 16]}]
map = [{path = "Main.Go", table = "coil", address = 0}, {path = "Main.Delay.IN", table = "discrete", address = 0},
  {path = "$running", table = "discrete", address = 8}, {path = "Main.Big", table = "input", address = 0},
  {path = "Main.Band", table = "holding", address = 0}, {path = "Main.Big", table = "holding", address = 1},
  {path = "Main.Age", table = "holding", address = 3, form = "UINT32", words = "little"},
  {path = "Main.Small", table = "holding", address = 5}, {path = "Main.Q", table = "holding", address = 6}]
"""
NOISE = """import os, select, sys, time
os.sched_setscheduler(0, os.SCHED_RR, os.sched_param(21)) if os.geteuid() == 0 else None
worst, due = 0.0, time.monotonic() + 0.01
while not select.select([sys.stdin], [], [], 0.01)[0]:
    worst, due = max(worst, time.monotonic() - due), time.monotonic() + 0.01
print(worst * 1000)
"""

def needs(*names: str) -> pytest.MarkDecorator:
    """Skips a test where a package isn't there, and names it."""
    missing = packages.missing(*names)
    return pytest.mark.skipif(bool(missing), reason=f"missing: {', '.join(missing)}")

def free_port() -> int:
    with socket.socket() as made:
        made.bind(("127.0.0.1", 0))
        return made.getsockname()[1]

def ended(made: socket.socket) -> bool:
    """Whether the other end has closed a connection."""
    made.setblocking(False)
    try:
        return made.recv(1) == b""
    except OSError as error:
        return not isinstance(error, BlockingIOError)

def wait_for(what: Callable[[], Any], pause: float = 0.02) -> Any:
    """What it gives once that is true."""
    end = time.monotonic() + 60
    while not (found := what()):
        assert time.monotonic() < end, "it didn't become true in time"
        time.sleep(pause)
    return found

def lines_of(journal: Path, without: Collection[int] = ()) -> tuple[str, list[str]]:
    """The text that was loaded and the lines of a journal, read by nobody else's code."""
    text, lines = "", []
    for row in "".join(path.read_text("utf-8") for path in sorted(journal.glob("*.journal"))).split("\n")[:-1]:
        line, _, *numbers = [field.encode().decode("unicode_escape") for field in row[9:].split("\t")]
        if line.startswith("load "):
            text = text or line.partition("\n")[2]
        elif line.split()[0] not in ("takeback", "hold", "go") and not {*map(int, numbers[:1])} & {*without}:
            lines.append(line)
    return text, lines

def stc(verb: str, text: str, lines: Sequence[str] = ()) -> list[str]:
    """What `stc` writes of a text, and answers to lines."""
    with tempfile.NamedTemporaryFile("w", suffix=".st") as file:
        file.write(text)
        file.flush()
        command, script = [program(), verb, file.name, "--program", "Main"], "".join(line + "\n" for line in lines)
        return subprocess.run(command, input=script, capture_output=True, text=True).stdout.splitlines()

LEAVES = [line.split(" ", 3)[3] for line in stc("layout", BLOCKS)]
STATE = ["status", *(f"show {path}" for path in LEAVES)]  # lines whose answers are all that the program holds

def state(text: str, lines: Sequence[str]) -> list[str]:
    """The answers to STATE behind these lines."""
    return stc("run", text, [*lines, *STATE])[-len(STATE):]

class Client:
    """What a page does, without the page."""
    def __init__(self, url: str, token: str) -> None:
        import aiohttp

        async def connect() -> tuple[Any, Any]:
            http = aiohttp.ClientSession()
            return http, await http.ws_connect(url + "/live", protocols=[token], max_msg_size=1 << 24)

        self.runner = asyncio.Runner()
        self.http, self.live = self.run(connect())
        self.hello = self.next(lambda news: True)

    def run(self, work: Any) -> Any:
        return self.runner.run(asyncio.wait_for(work, 60))

    def close(self) -> None:
        self.run(self.http.close())
        self.runner.close()

    def ask(self, line: str, text: str = "") -> dict[str, Any]:
        if text:
            self.run(self.live.send_bytes(text.encode()[:1_048_577]))
        self.run(self.live.send_str(line))
        return self.next(lambda news: "reply" in news)

    def line(self, line: str, text: str = "") -> str:
        return self.ask(line, text)["reply"]

    def lines(self, *lines: str) -> list[str]:
        return [self.line(line) for line in lines]

    def until(self, what: Callable[[dict[str, Any]], bool]) -> dict[str, Any]:
        """The next status of which something is true."""
        return self.next(lambda news: bool(news.get("status")) and what(news["status"]))["status"]

    def next(self, what: Callable[[dict[str, Any]], bool]) -> dict[str, Any]:
        return wait_for(lambda: news if what(news := self.run(self.live.receive_json())) else None, pause=0)

class Host:
    """A plant in a folder of its own, the process that runs it, and its clients."""
    def __init__(self, folder: Path, text: str, file: str) -> None:
        self.folder, self.port, self.modbus, self.plant = folder, free_port(), free_port(), str(folder / "plant")
        self.url, self.journal = f"http://127.0.0.1:{self.port}", folder / "plant.state" / "journal"
        (folder / "plant.state").mkdir(parents=True)
        (folder / "plant.st").write_text(text)
        (folder / "plant.toml").write_text(file.replace("PAGE_PORT", str(self.port)).replace("MODBUS_PORT", str(self.modbus)))
        tokens = folder / "plant.state" / "tokens.toml"
        tokens.write_text(f'[act]\nanna = "{ACT}"\n[look]\nluca = "{LOOK}"\n')
        tokens.chmod(0o600)
        self.process: subprocess.Popen[str] | None = None
        self.clients: list[Client] = []

    def start(self, *words: str) -> None:
        command = [str(HOST / "run"), self.plant, *words]
        self.process = subprocess.Popen(command, stdout=subprocess.PIPE, stderr=subprocess.STDOUT, text=True)
        line = self.process.stdout.readline()  # type: ignore[union-attr]
        assert "http://" in line, line + self.process.communicate()[0]

    def stop(self, number: int = signal.SIGTERM) -> str:
        """Ends it. The answer has what it said on its terminal."""
        while self.clients:
            self.clients.pop().close()
        if self.process is None:
            return ""
        self.process.send_signal(number)
        said, self.process = self.process.communicate(timeout=60)[0], None
        with (self.folder / "plant.state" / "lock").open() as lock:  # until the journal is written
            fcntl.flock(lock, fcntl.LOCK_EX)
        return said

    def client(self, token: str = ACT) -> Client:
        self.clients.append(Client(self.url, token))
        return self.clients[-1]

    def tool(self, name: str, *words: str, script: str = "", status: int | None = None) -> str:
        """What one of the host's programs prints."""
        done = subprocess.run([HOST / name, *words], input=script, capture_output=True, text=True, timeout=60)
        assert status in (None, done.returncode), done.stdout + done.stderr
        return done.stdout + done.stderr

    def console(self, script: str, status: int | None = None) -> str:
        return self.tool("console", self.plant, script=script, status=status)

    def replayed(self, *words: str) -> list[str]:
        return self.tool("replay", str(self.journal), *words, status=0).splitlines()[:-1]

    @contextlib.contextmanager
    def undelayed(self) -> Iterator[None]:
        """No scan comes later meanwhile than a cycle and what the machine is late by itself; one place may be lost."""
        before = self.client(LOOK).until(lambda status: status["cycles"] > 20)
        self.clients.pop().close()
        with subprocess.Popen([sys.executable, "-c", NOISE], stdin=subprocess.PIPE, stdout=subprocess.PIPE, text=True) as noise:
            yield
            late = 3 * float(noise.communicate("")[0])
        after = self.client(LOOK).until(lambda status: True)
        cycles, most = after["cycles"] - before["cycles"], max(before["period"] + late, before["lateness_worst"] + 1)
        assert cycles > 50 and after["lateness_worst"] < most, (late, before, after)
        assert after["skipped"] - before["skipped"] <= 1 + cycles * late / 300, (late, before, after)

@pytest.fixture
def make_host(tmp_path: Path) -> Iterator[Callable[..., Host]]:
    """Makes hosts, and stops them behind the test."""
    made: list[Host] = []

    def make(text: str = BLOCKS, file: str = FILE, start: bool = True) -> Host:
        made.append(Host(tmp_path / str(len(made)), text, file))
        if start:
            made[-1].start()
        return made[-1]

    yield make
    for host in made:
        host.stop(signal.SIGKILL)

@pytest.fixture
def host(make_host: Callable[..., Host]) -> Host:
    return make_host()

@pytest.fixture
def client(host: Host) -> Client:
    return host.client()
