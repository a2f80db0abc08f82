"""The engine: the one writer to `stc`. It scans by the clock and serves operators between two scans."""
import asyncio
import time
from collections import deque
from collections.abc import AsyncIterator, Callable, Coroutine, Sequence
from contextlib import asynccontextmanager, suppress
from itertools import chain
from typing import Any, TypeVar
from . import Trouble
from .change import Types, connections
from .clock import Clock, Cycle
from .devices import Device, Inputs
from .journal import Journal, Record
from .plant import PlantTable
from .replay import NO_BASE, UNDOABLE, Story, restore
from .session import CODE, Gone, Session, checked, explain, layout_of, words_of
from .values import to_number

QUEUE_LIMIT, CHUNK = 1_000, 200  # lines that may wait, and leaves that are shown at one go
QUIET = ("show", "status")  # these change nothing, and aren't kept
VERBS = (*QUIET, *UNDOABLE[:-1], "reset", "undo", "hold", "go")  # a change is done after its preview
NONE = ("", "")  # the value of a leaf that wasn't shown yet, and `forced` where it is
Result = TypeVar("Result")

class Busy(Trouble):
    """Too many lines wait already."""

class Engine:
    """Runs a plant: one session with `stc`, its devices, its journal, and a queue of what others want of it."""

    def __init__(self, plant: PlantTable, clock: Clock, connect: Callable[[Types], list[Device]]) -> None:
        self.plant, self.clock, self._connect = plant, clock, connect
        self.journal = Journal(plant.state / "journal", plant.journal)
        self.devices: list[Device] = []
        self.session: Session | None = None
        self.story = Story()
        self.types: Types = {}
        self.spelled: dict[str, str] = {}  # each leaf's path, by the same in capitals
        self.values: dict[str, tuple[str, str]] = {}  # as `stc` shows them, each with `forced` or nothing
        self.inputs = Inputs((), {})
        self.safe = {point.path: point.fault or "0" for point in plant.output}
        self.driven: dict[str, str] = {}  # what the outputs are given
        self.watched: dict[object, Sequence[str]] = {}  # the leaves that each client looks at
        self.trend: deque[tuple[int, list[str]]] = deque(maxlen=max(1, plant.trend_keep * 1000 // plant.page.refresh))
        self.held = False
        self.fault = self.trouble = ""  # why the program is halted, and why nothing runs at all
        self.forces = self.undos = self.version = self._sweep = 0  # the version is that of the program's text
        self.status: dict[str, Any] = {}
        self.cycle = Cycle(clock, plant.cycle)
        self.guard = min(0.002, self.cycle.period / 5)  # nothing is begun so shortly before a scan
        self.loop: asyncio.AbstractEventLoop | None = None
        self._queue: deque[tuple[asyncio.Future[None], asyncio.Future[None]]] = deque()  # who waits for a gap, and its end
        self._event = asyncio.Event()
        self._taking_back = asyncio.Lock()
        self._news: list[Record] = []  # what is kept while a command is taken back
        self._pause, self._stopping = 0.0, False  # the pause is that before `stc` is started again

    async def asked(self, work: Coroutine[Any, Any, Result]) -> Result:
        """Does something of the engine for another thread's loop, in the engine's own, whatever becomes of who asked."""
        assert self.loop is not None
        return await asyncio.shield(asyncio.wrap_future(asyncio.run_coroutine_threadsafe(work, self.loop)))

    @asynccontextmanager
    async def gap(self) -> AsyncIterator[None]:
        """A gap between two scans, behind all who wait for one already; the session is one's own in it."""
        if self.session is None:
            raise Trouble(f"the program doesn't run: {self.trouble}")
        if len(self._queue) >= QUEUE_LIMIT:
            raise Busy("too many lines wait")
        turn, end = (asyncio.get_running_loop().create_future() for _ in range(2))
        self._queue.append((turn, end))
        self._event.set()
        try:
            await turn
            yield
        except Gone as error:
            end.set_exception(error)
            raise Trouble("stc ended before it replied: the line counts as not given") from error
        finally:
            if not end.done():
                end.set_result(None)

    async def operate(self, who: str, line: str, changes: str | None = None) -> str:
        """One line of an operator, and its reply. Trouble where the host doesn't send it. A change says which text it changes."""
        verb = "change" if changes is not None else words_of(checked(line))[0]
        if verb not in VERBS and changes is None:
            raise Trouble("scans are the clock's" if verb == "scan" else f"the commands are {', '.join(VERBS)}")
        if verb in ("hold", "go"):  # outputs stay as they are meanwhile, and what is done can be undone
            self.held = verb == "hold"
            self._keep(self._by(who, verb))
            return "held" if self.held else "going on"
        async with self.gap():
            text = self.story.text
            if changes not in (None, text):
                raise Trouble("the program was changed since this preview")
            reply = (await self._exchange([line]))[0]
            if verb not in QUIET:
                self._keep(self._by(who, line, reply))
                await self.journal.settle()
            if verb not in QUIET and not reply.startswith("refused"):
                with suppress(Gone):  # the line is kept, so that it counts; the next one finds that `stc` has ended
                    await self._follow(*words_of(line))
        if self.story.text is not text:
            self._take_program(await layout_of(self.story.text, self.plant.main))
        return reply

    async def set_input(self, path: str, number: int) -> None:
        """A new number for an input without a device; the next scan gives it. Trouble where it has one."""
        if self.inputs.points[path].device is not None:
            raise Trouble(f"{path} follows its device")
        self.inputs.by_hand[path] = number

    async def take_back(self, who: str, number: int) -> list[Record]:
        """Lets the journal without a command take over, replayed beside the plant. The answer has what is answered otherwise."""
        async with self._taking_back:
            if not self.story.can_go(number):
                raise Trouble("what can be taken back is a write, force, release or change since the newest load, reset and undo")
            if self.journal.trouble:
                raise Trouble(self.journal.trouble)
            await self.journal.written()
            records, self._news = self.journal.records, []
            replay = await restore(self.journal.folder, without=number)
            try:
                types = await layout_of(replay.story.text, self.plant.main)
                await connections(self.plant, replay.story.text, types)
                async with self.gap():
                    text = replay.story.text
                    await replay.feed(self._news[replay.records - records:])  # what was done since
                    if replay.story.text != text:
                        raise Trouble("the program was changed meanwhile")
                    self.session, replay.session, self.story = replay.session, self.session, replay.story
                    self._keep(self._by(who, f"takeback {number}"))
                    self._take_program(types)
                    self.inputs.given.clear()
                    await self._read_status()
            finally:
                await replay.close()  # whichever session isn't the plant's
            return replay.others

    async def run(self) -> None:
        """Scans until it is stopped."""
        self.loop = asyncio.get_running_loop()
        looker = asyncio.create_task(self._look())
        try:
            await self._recover()
            self.cycle = Cycle(self.clock, self.plant.cycle, self.story.moment + self.plant.cycle if self.story.moment else 0)
            while not self._stopping:
                try:
                    if self.session is None:
                        await self._recover()
                    await self._serve(self.cycle.place())
                    if not self._stopping:
                        await self._turn()
                except (OSError, Trouble) as error:
                    await self._fail(str(error))
        finally:
            looker.cancel()
            await asyncio.gather(*(device.end(self._numbers(self.safe)) for device in self.devices))
            if self.session is not None:
                await self.session.close()
            self.journal.close()

    def stop(self) -> None:
        self._stopping = True
        self._event.set()

    async def _serve(self, until: float) -> None:
        """Lets those who wait go on while there is time before the next scan; where scans leave none, one all the same."""
        starved = until - self.clock.now() <= self.guard
        while not self._stopping:
            now = self.clock.now()
            if self._queue and (starved or until - now > self.guard):
                turn, end = self._queue.popleft()
                if not turn.done():  # who waits is still there
                    starved = False
                    turn.set_result(None)
                    await end
            elif now >= until:
                await asyncio.sleep(0)  # whoever else waits for the loop has a turn
                return
            else:
                self._event.clear()
                await self.clock.wait(self._event, until)

    async def _turn(self) -> None:
        """One cycle: inputs are polled, the program is scanned, and outputs are pushed."""
        moment = self.cycle.begin()
        polled = await asyncio.gather(*(device.poll() for device in self.devices))
        for device, numbers in zip(self.devices, polled):
            self.inputs.poll(device.file.name, numbers)
        lines, changed = ([], {}) if self.fault or self.held else self.inputs.lines(moment)
        match (await self._show(self._always, lines))[-1:]:
            case ["ok"]:
                self.inputs.accepted(changed)
                self.trouble = ""
            case [answer]:
                self.inputs.given.clear()
                self.fault = answer.removeprefix("fault ") if answer.startswith("fault") else self.fault
                self.trouble = f"a scan is answered `{answer}`" if answer.startswith("refused") else ""
        await self._push()
        self.cycle.end()

    async def _follow(self, verb: str, path: str = "", *_: str) -> None:
        """What an accepted line means for the host."""
        self.inputs.given.clear()
        await self._read_status()
        if verb == "reset":  # the state is the program's text and what is forced in it, so that a replay can begin here
            await self._show(list(self.types) if self.forces else [])
            self._keep(self.story.base(self.forced()))
            self.trouble = ""
        elif path := self.spelled.get(path.upper(), ""):
            await self._show([path])

    def _by(self, who: str, line: str, reply: str = "ok") -> Record:
        """A line that an operator gave now."""
        return Record(line, reply, self.story.number, time.time_ns() // 1_000_000, who)

    def _keep(self, record: Record) -> None:
        """Appends a record to the journal, and to what is told of it."""
        self.journal.append(record)
        self.story.take(record)
        if self._taking_back.locked():
            self._news.append(record)

    async def _exchange(self, lines: Sequence[str]) -> list[str]:
        if self.session is None:
            raise Gone("stc doesn't run")
        return await self.session.exchange(lines)

    async def _show(self, paths: Sequence[str], lines: Sequence[str] = ()) -> list[str]:
        """Shows leaves, behind lines that are kept before anything is told of them. The answer has the replies to the lines."""
        replies = await self._exchange([*lines, *(f"show {path}" for path in paths)])
        for line, reply in zip(lines, replies):
            self._keep(Record(line, reply))
        if lines:
            await self.journal.settle()
        for path, reply in zip(paths, replies[len(lines):]):
            if not reply.startswith("refused"):
                text, _, forced = reply.partition(" = ")[2].partition(" ")
                self.values[path] = text, forced
        return replies[:len(lines)]

    async def _look(self) -> None:
        """Shows what clients look at, and a few other leaves in turn, some in each gap. Behind all of them clients are told."""
        while True:
            await asyncio.sleep(self.plant.page.refresh / 1000)
            some = list(self.types)[self._sweep:self._sweep + CHUNK]
            self._sweep = self._sweep + CHUNK if len(some) == CHUNK else 0
            wanted = dict.fromkeys([*chain(*list(self.watched.values())), *self.plant.trend, *self.inputs.points, *some])
            paths = [path for path in wanted if path in self.types]
            with suppress(Trouble):
                for first in range(0, len(paths), CHUNK):
                    async with self.gap():
                        await self._show(paths[first:first + CHUNK])
                async with self.gap():
                    await self._read_status()
                self.trend.append((self.cycle.moment, [self.values.get(path, NONE)[0] for path in self.plant.trend]))
                self.status = self.told()

    async def _read_status(self) -> None:
        """Takes over what `stc` says of itself: `running T forces F undo U`, or `halted F2 Main line 4 forces F undo U`."""
        head, _, rest = (await self._exchange(["status"]))[0].partition(" forces ")
        self.forces, self.undos = int(rest.split()[0]), int(rest.split()[2])
        self.fault = head.removeprefix("halted ") if head.startswith("halted") else ""

    def told(self) -> dict[str, Any]:
        """What every client is told."""
        stopped = "trouble" if self.trouble or self.session is None else "halted" if self.fault else ""
        state, journal = stopped or ("held" if self.held else "running"), self.journal.told()
        notice = filter(None, [state, self.fault, self.trouble, self.journal.trouble, "" if journal["reaches"] else NO_BASE])
        return {
            "state": state, "notice": " ".join(notice), "fault": self.fault, "why": explain(f"fault {self.fault}"),
            "trouble": self.trouble, "moment": self.story.moment, "version": self.version, "forces": self.forces,
            "undos": self.undos, "undo": self.story.undoable[-1][0].line if self.story.undoable else "",
            "period": self.plant.cycle, **self.cycle.told(), "journal": journal,
            "devices": [item.told() for item in self.devices], "good": dict(self.inputs.good), "driven": dict(self.driven)}

    async def _push(self) -> None:
        """Gives the outputs what the program has, or their values for a fault where it doesn't run."""
        known = {path: self.values.get(path, (text,))[0] for path, text in self.safe.items()}
        self.driven = self.safe if self.fault or self.trouble else known
        await asyncio.gather(*(device.push(self._numbers(self.driven)) for device in self.devices))

    def forced(self) -> list[str]:
        """What is forced, in words P:=V."""
        return [f"{path}:={text}" for path, (text, forced) in list(self.values.items()) if forced]

    def _numbers(self, texts: dict[str, str]) -> dict[str, int]:
        return {path: to_number(self.types[path], text) for path, text in texts.items() if path in self.types}

    def _take_program(self, types: Types) -> None:
        self.types, self.spelled = types, {path.upper(): path for path in types}
        self.values = {path: value for path, value in self.values.items() if path in types}
        served = [item.path for item in self.plant.server.map if item.path in types] if self.plant.server else []
        self._always = list(dict.fromkeys([*self.safe, *served]))  # the leaves that are shown behind each scan
        self.version, self._sweep = self.version + 1, 0

    async def _recover(self) -> None:
        """Starts where the journal ends; or loads the program where there is no journal."""
        self.journal.close()
        replay = await restore(self.journal.folder)
        self.session, self.story = replay.session, replay.story
        self.journal.resume(replay.records)
        if self.session is None:  # there is no journal yet
            self.story = Story(self.plant.program.read_bytes().decode(*CODE), self.plant.main, self.plant.steps)
            self.session = await Session.start(self.story.text, self.story.main, self.story.steps)
            self._keep(self.story.base([]))
        types = await layout_of(self.story.text, self.plant.main)
        await connections(self.plant, self.story.text, types)
        self._take_program(types)
        await self._read_status()
        self.devices = self.devices or self._connect(types)
        self.inputs = Inputs(self.plant.input, self.types)
        self.trouble, self._pause = "", 0.0
        await self._show(self._always)
        self.status = self.told()

    async def _fail(self, why: str) -> None:
        """`stc` has ended: the outputs get their values for a fault, and who waits is told. It is started again in a while."""
        old, self.session, self.trouble = self.session, None, why
        await self._push()
        self.status = self.told()
        while self._queue:
            turn, _ = self._queue.popleft()
            if not turn.done():
                turn.set_exception(Trouble(f"the program doesn't run: {why}"))
        if old is not None:
            await old.close()
        self._event.clear()
        await self.clock.wait(self._event, self.clock.now() + self._pause)
        self._pause = min(30.0, self._pause * 2 + 0.5)
