"""Process inputs, and what stands at the other end of them and of outputs, simulated plants among it."""
import asyncio
import math
import time
from bisect import bisect
from collections.abc import Callable, Coroutine, Sequence
from contextlib import suppress
from functools import partial
from itertools import accumulate
from typing import Any
from . import Trouble
from .plant import DeviceTable, PlantTable, PointTable
from .session import CODE, LINE_LIMIT
from .values import fits, to_text

class Inputs:
    """What a scan gives of inputs. Those with a device follow it; the others are given what a Modbus client sets, once."""
    def __init__(self, points: Sequence[PointTable], types: dict[str, str]) -> None:
        self.points, self.types = {point.path: point for point in points}, types
        self.numbers: dict[str, int] = {}  # the newest of each
        self.by_hand: dict[str, int] = {}  # that weren't given yet
        self.good = {point.path: point.device is None for point in points}
        self.given: dict[str, str] = {}  # what the program has; cleared where something else than a scan may have changed it

    def poll(self, device: str, numbers: dict[str, int]) -> None:
        """What a device gave. Inputs that it didn't give, or not as their types have it, keep the last one and aren't good."""
        good = {path: number for path, number in numbers.items() if fits(self.types[path], number)}
        self.good |= {path: path in good for path, point in self.points.items() if point.device == device}
        self.numbers |= good

    def lines(self, moment: int) -> tuple[list[str], dict[str, str]]:
        """The scan of a moment, behind writes of what has no room in its line; and what these give."""
        wanted = {path: to_text(self.types[path], number) for path, number in self.numbers.items()}
        wanted |= {point.quality: to_text("BOOL", self.good[path]) for path, point in self.points.items() if point.quality}
        changed = {path: text for path, text in wanted.items() if self.given.get(path) != text}
        changed |= {path: to_text(self.types[path], number) for path, number in self.by_hand.items()}
        words = [f"{path}:={text}" for path, text in changed.items()]
        sizes = list(accumulate(len(word.encode(*CODE)) + 1 for word in words))
        room = bisect(sizes, LINE_LIMIT - 32)
        writes = ["write " + word.replace(":=", " ") for word in words[room:]]
        return [*writes, " ".join([f"scan {moment}", *words[:room]])], changed

    def accepted(self, changed: dict[str, str]) -> None:
        """The scan was accepted."""
        self.given |= changed
        self.by_hand = {path: number for path, number in self.by_hand.items()
                        if changed.get(path) != to_text(self.types[path], number)}

class Device:
    """Gives numbers of inputs and takes those of outputs, by paths. It is waited for no longer than its share of a cycle."""
    def __init__(self, file: DeviceTable, plant: PlantTable, types: dict[str, str]) -> None:
        self.file, self.types, self.share = file, types, file.share / 100 * plant.cycle / 1000
        self.inputs, self.outputs = ([point for point in points if point.device == file.name]
                                     for points in (plant.input, plant.output))
        self.turn = asyncio.Lock()  # one request at a time: many devices take no more
        self.troubles = {"reading": "nothing was read yet", "writing": ""}
        self.behind = 0  # how often it was too slow for its share
        self._tasks: dict[str, asyncio.Task[Any]] = {}  # that aren't over yet
        self._left = self.share  # of this cycle

    async def read(self) -> dict[str, int]:
        raise NotImplementedError

    async def write(self, numbers: dict[str, int]) -> None:
        raise NotImplementedError

    async def close(self) -> None:
        """Ends a connection."""

    def told(self) -> dict[str, Any]:
        trouble = ", ".join(filter(None, self.troubles.values()))
        return {"name": self.file.name, "good": not trouble, "trouble": trouble, "behind": self.behind}

    async def poll(self) -> dict[str, int]:
        """What the device gives within its share, and nothing where it doesn't."""
        self._left = self.share
        return await self._do("reading", self.read) or {}

    async def push(self, numbers: dict[str, int]) -> None:
        """Gives the device these numbers, unless it is still busy with those before."""
        await self._do("writing", partial(self.write, numbers))

    async def end(self, numbers: dict[str, int]) -> None:
        """Gives the device its last numbers, behind those that are on their way, and closes it."""
        if reading := self._tasks.get("reading"):
            reading.cancel()
        if writing := self._tasks.get("writing"):
            await asyncio.wait({writing}, timeout=2)
        with suppress(Exception):  # whatever a device does, the others get theirs
            await asyncio.wait_for(self.write(numbers), 2)
        await self.close()

    async def _do(self, what: str, work: Callable[[], Coroutine[Any, Any, Any]]) -> Any:
        """What comes of some work, begun now or before. None where it isn't over within what is left of the share, or failed."""
        task = self._tasks[what] = self._tasks.get(what) or asyncio.create_task(work())
        began = time.monotonic()
        await asyncio.wait({task}, timeout=max(0.0, self._left))
        self._left -= time.monotonic() - began
        if not task.done():
            self.behind, self.troubles[what] = self.behind + 1, f"{what} takes longer than its share of the cycle"
            return None
        del self._tasks[what]
        error = asyncio.CancelledError() if task.cancelled() else task.exception()
        self.troubles[what] = f"{type(error).__name__}: {error}" if error else ""
        return None if error else task.result()

class Tank:
    """A tank of 1,000 mm with a pump and a drain whose flow rises and falls."""
    inputs, outputs = ("level",), ("pump", "alarm")
    level, age = 500.0, 0.0

    def step(self, seconds: float, outputs: dict[str, int]) -> dict[str, int]:
        self.age += seconds
        flow = 22.0 + 10.0 * math.sin(self.age / 9)
        self.level = min(1000.0, max(0.0, self.level + seconds * ((60.0 if outputs.get("pump") else 0.0) - flow)))
        return {"level": round(self.level)}

class Conveyor:
    """A belt with a part each 1.5 s before a light barrier."""
    inputs, outputs = ("barrier",), ("belt", "pusher", "fan", "alarm")
    way = 0.0

    def step(self, seconds: float, outputs: dict[str, int]) -> dict[str, int]:
        self.way += seconds if outputs.get("belt") else 0.0
        return {"barrier": int(self.way % 1.5 > 1.2)}

MODELS: dict[str, type[Tank] | type[Conveyor]] = {"tank": Tank, "conveyor": Conveyor}

class Simulation(Device):
    """A simulated plant: it goes on by the clock, and sees the outputs that it was given last."""
    def __init__(self, file: DeviceTable, plant: PlantTable, types: dict[str, str]) -> None:
        super().__init__(file, plant, types)
        self.model, self.then, self.given = MODELS[file.model](), time.monotonic(), dict[str, int]()
        for points, names in ((self.inputs, self.model.inputs), (self.outputs, self.model.outputs)):
            if wrong := [point.path for point in points if point.name not in names]:
                raise Trouble(f"{wrong[0]}: the model {file.model} has here {', '.join(names)}")

    async def read(self) -> dict[str, int]:
        then, self.then = self.then, time.monotonic()
        shown = self.model.step(min(1.0, self.then - then), self.given)
        return {point.path: shown[point.name] for point in self.inputs}

    async def write(self, numbers: dict[str, int]) -> None:
        self.given = {point.name: numbers[point.path] for point in self.outputs}
