"""The clock of scans: places of equal distance on the monotonic clock, and what is told of how late they were."""
import asyncio
import time

FIGURES = ("cycles", "late", "overruns", "skipped", "lateness_mean", "lateness_worst", "work_mean", "work_worst")

class Clock:
    """The machine's monotonic clock, in seconds."""
    def now(self) -> float:
        return time.monotonic()

    async def wait(self, event: asyncio.Event, until: float) -> None:
        """Returns once the event is set, or at the moment `until`."""
        alarm = asyncio.get_running_loop().call_later(until - time.monotonic(), event.set)
        await event.wait()
        alarm.cancel()

class Cycle:
    """Cycles of `period` ms. The n-th has its place n periods behind the start, however late the ones before it came."""
    def __init__(self, clock: Clock, period: int, first: int = 0) -> None:
        self.clock, self.period = clock, period / 1000
        self.moment = self._first = first  # the newest one that was given, and the one of the start
        self._start = self._began = clock.now()
        self._number = self.cycles = self.late = self.overruns = self.skipped = 0  # `late` by 1 ms and by a tenth
        self.lateness_mean = self.lateness_worst = self.work_mean = self.work_worst = 0.0  # ms

    def told(self) -> dict[str, float]:
        """How many cycles there were, began late, weren't over when the next was due, and had no place; and in ms how late."""
        return {name: round(value, 3) for name, value in vars(self).items() if name in FIGURES}

    def place(self) -> float:
        """When the cycle is due."""
        return self._start + self._number * self.period

    def begin(self) -> int:
        """Begins the newest cycle that is due. Its moment is the time since the start in ms, and never before the last one."""
        self._began = self.clock.now()
        passed = max(0, int((self._began - self.place()) / self.period))
        self._number += passed
        late = max(0.0, self._began - self.place()) * 1000
        self.cycles += 1
        self.skipped += passed
        self.lateness_mean += (late - self.lateness_mean) / self.cycles
        self.lateness_worst = max(self.lateness_worst, late)
        self.late += late >= max(1.0, self.period * 100)
        self.moment = max(self.moment, self._first + int((self._began - self._start) * 1000 + 0.001))
        return self.moment

    def end(self) -> None:
        """Ends the cycle."""
        work = ((now := self.clock.now()) - self._began) * 1000
        self.work_mean += (work - self.work_mean) / self.cycles
        self.work_worst = max(self.work_worst, work)
        self._number += 1
        self.overruns += now > self.place()
