"""Parts without a host: the clock and the queue over a clock that the test moves, the journal as a file, and values."""
import asyncio
import os
from collections.abc import Awaitable, Callable, Sequence
from pathlib import Path
from types import SimpleNamespace
import pytest
from conftest import BLOCKS, FILE
from stchost import Trouble, journal
from stchost.clock import Clock, Cycle
from stchost.engine import Engine
from stchost.journal import Journal, Record, read
from stchost.plant import JournalTable, load
from stchost.session import Session
from stchost.values import to_number, to_text

FIRST = "00000001-00000000.journal"
BASE = Record("load 0 Main 1000 Main.A:=5\nPROGRAM Main\nEND_PROGRAM\n", number=1)
CHANGE = Record("change\nA\t\\0\udc80\nend_change", "ok kept 1 dropped 0 new 0", 1, 5, "anna")
Visit = tuple[float, Callable[[], Awaitable[object]]]  # what comes at a time

class FakeClock(Clock):
    """A clock that stands still but where the test moves it, or the engine waits."""
    time = 0.0
    visits: list[Visit] = []

    def now(self) -> float:
        return self.time

    async def wait(self, event: asyncio.Event, until: float) -> None:
        await asyncio.sleep(0)
        if event.is_set():
            return
        if self.visits and self.visits[0][0] <= until:
            at, visit = self.visits.pop(0)
            self.time = max(self.time, at)
            self.task = asyncio.ensure_future(visit())
        else:
            self.time = max(self.time, until)
        await asyncio.sleep(0)

class Bench:
    """An engine over a fake clock, of which each line takes some time. Tests run it with visits."""
    def __init__(self, folder: Path, monkeypatch: pytest.MonkeyPatch) -> None:
        (folder / "plant.st").write_text(BLOCKS)
        file = FILE.replace("refresh = 50", "refresh = 10000").replace("PAGE_PORT", "0").replace("MODBUS_PORT", "0")
        (folder / "plant.toml").write_text(file)
        self.clock, self.cost = FakeClock(), lambda line: 0.0
        self.lines: list[str] = []
        self.scans: list[tuple[float, int]] = []  # when each came, and its moment
        self.engine = Engine(load(folder / "plant.toml"), self.clock, lambda types: [])
        real = Session.exchange

        async def exchange(session: Session, lines: Sequence[str]) -> list[str]:
            for line in lines if session is self.engine.session else ():
                if line.startswith("scan"):
                    self.scans.append((round(self.clock.time, 6), int(line.split()[1])))
                self.lines.append(line)
                self.clock.time += self.cost(line)
            return await real(session, lines)

        monkeypatch.setattr(Session, "exchange", exchange)

    def run(self, seconds: float, *visits: Visit) -> list[int]:
        """The moments of the scans."""
        async def stop() -> None:
            self.engine.stop()

        self.clock.visits = [*visits, (seconds, stop)]
        asyncio.run(self.engine.run())
        return [moment for _, moment in self.scans]

    async def operate(self, *lines: str) -> list[str]:
        return list(await asyncio.gather(*(self.engine.operate("anna", line) for line in lines)))

@pytest.fixture
def bench(tmp_path: Path, monkeypatch: pytest.MonkeyPatch) -> Bench:
    return Bench(tmp_path, monkeypatch)

@pytest.mark.parametrize("lateness, work, moments, places, figures", [
    ([0] * 1000, [0.001] * 1000, [*range(0, 10_000, 10)], [*range(0, 10_000, 10)], (1000, 0, 0, 0, 0.0, 1.0)),  # no drift
    ([0, 0.004, 0, 0], [0.001] * 4, [0, 14, 20, 30], [0, 10, 20, 30], (4, 1, 0, 0, 4.0, 1.0)),  # the next one keeps its place
    ([0] * 5, [0.001, 0.035, 0.001, 0.001, 0.001], [0, 10, 45, 50, 60], [0, 10, 40, 50, 60], (5, 1, 1, 2, 5.0, 35.0))])
def test_cycles_have_their_places(lateness, work, moments: list[int], places: list[int], figures: tuple[float, ...]) -> None:
    clock = FakeClock()
    cycle, begun, due = Cycle(clock, 10), [], []
    for late, long in zip(lateness, work):
        clock.time = max(clock.time, cycle.place()) + late
        begun.append(cycle.begin())
        due.append(round(cycle.place() * 1000, 6))
        clock.time += long
        cycle.end()
    told = cycle.told()
    assert (begun, due) == (moments, places)
    assert tuple(told[key] for key in ("cycles", "late", "overruns", "skipped", "lateness_worst", "work_worst")) == figures

def test_lines_wait_for_the_gap_between_two_scans(bench: Bench) -> None:
    bench.cost, replies = lambda line: 0.0001, []

    async def visit() -> None:
        replies.extend(await bench.operate("force Main.Band 5", "show Main.Band", "write Main.Nope 1"))

    bench.run(0.1, (0.0145, visit))
    assert replies == ["ok", "Main.Band = 5 forced", "refused O1"]
    first, lines = bench.scans[0][0], bench.lines
    assert [round(at - first, 6) for at, _ in bench.scans] == [round(0.01 * place, 6) for place in range(10)]
    assert lines.index("force Main.Band 5") < next(place for place, line in enumerate(lines) if line.startswith("scan 20"))

def test_a_crowd_of_lines_delays_no_scan(bench: Bench) -> None:
    bench.cost, done = lambda line: 0.0003, []

    async def visit() -> None:
        done.extend(await bench.operate(*(f"write Main.Band {number}" for number in range(500))))

    assert bench.run(1.0, (0.012, visit)) == [10 * place for place in range(100)]
    assert done == ["ok"] * 500
    told = bench.engine.cycle.told()
    assert told["lateness_worst"] < 1.0 and told["overruns"] == 0

def test_a_long_line_delays_one_scan_and_no_more(bench: Bench) -> None:
    bench.cost = lambda line: 0.024 if line.startswith("force") else 0.0
    assert bench.run(0.1, (0.012, lambda: bench.operate("force Main.Band 5")))[:6] == [0, 10, 36, 40, 50, 60]

def test_inputs_are_given_once_and_those_of_devices_again_behind_a_command(bench: Bench) -> None:
    async def visit() -> None:
        bench.engine.inputs.poll("sim", {"Main.Raw": 41})
        await bench.engine.set_input("Main.Go", 1)

    bench.run(0.05, (0.012, visit), (0.032, lambda: bench.operate("write Main.Band 0")))
    assert [line for line in bench.lines if line.startswith("scan")] == [
        "scan 0", "scan 10", "scan 20 Main.Raw:=41 Main.Go:=TRUE", "scan 30", "scan 40 Main.Raw:=41"]

def write(folder: Path, piece: int = 1 << 20, count: int = 5) -> None:
    made = Journal(folder, JournalTable("never", piece, 1 << 30))
    for record in [BASE, *([Record("scan 5"), CHANGE] * count)]:
        made.append(record)
    made.close()

def test_records_come_back_as_they_were_written_and_each_damaged_byte_is_found(tmp_path: Path) -> None:
    write(tmp_path, count=2)
    assert list(read(tmp_path))[:3] == [BASE, Record("scan 5", "ok"), CHANGE]
    path = tmp_path / FIRST
    data = path.read_bytes()
    for place in range(len(data) - 1):
        if data[place] != 10:
            path.write_bytes(data[:place] + bytes([data[place] ^ 1]) + data[place + 1:])
            number = data[:place].count(b"\n") + 1
            with pytest.raises(Trouble, match=f"{FIRST}: record {number}, from byte {data.rfind(10, 0, place) + 1} on"):
                list(read(tmp_path))

@pytest.mark.parametrize("loss", ["a record", "a piece", "the end of a piece"])
def test_what_is_missing_is_found(tmp_path: Path, loss: str) -> None:
    write(tmp_path, piece=200, count=20)
    paths = [path for _, _, path in journal.pieces(tmp_path)]
    assert len(paths) > 4 and len(list(read(tmp_path))) == 41
    lines = paths[2].read_bytes().splitlines(keepends=True)
    if loss == "a piece":
        paths[2].unlink()
    else:
        paths[2].write_bytes(b"".join(lines[:1] + lines[2:] if loss == "a record" else lines[:-1]))
    with pytest.raises(Trouble):
        list(read(tmp_path))

@pytest.mark.parametrize("sync, synced", [("never", 0), ("second", 1), ("always", 3)])
def test_the_disk_is_asked_as_the_file_has_it(tmp_path: Path, monkeypatch, sync: str, synced: int) -> None:
    sizes, clock = [], SimpleNamespace(monotonic=lambda: clock.now, now=100.0)
    monkeypatch.setattr(os, "fsync", lambda file: sizes.append(os.fstat(file.fileno()).st_size))
    monkeypatch.setattr(journal, "time", clock)

    async def scans() -> None:
        made = Journal(tmp_path, JournalTable(sync, 4_096, 65_536))
        made.append(BASE)
        for step in (0.5, 0.4, 0.2):
            clock.now += step
            made.append(Record("scan 0"))
            await made.settle()
            assert sync != "always" or sizes[-1] == made.told()["bytes"]  # all is on the disk before anyone is told
        await asyncio.sleep(0.2)

    asyncio.run(scans())
    assert len(sizes) == synced

def test_values_as_lines_have_them() -> None:
    for kind, text, number in [("BOOL", "TRUE", 1), ("INT", "-32768", -32768), ("WORD", "16#FF", 255),
                               ("TIME", "T#-90000ms", -90000), ("LINT", "-9223372036854775808", -(1 << 63))]:
        assert to_number(kind, text) == to_number(kind, to_text(kind, number)) == number
    for kind, text in [("INT", "32768"), ("BOOL", "2"), ("TIME", "5"), ("UINT", "-1"), ("INT", "x")]:
        with pytest.raises(ValueError):
            to_number(kind, text)
