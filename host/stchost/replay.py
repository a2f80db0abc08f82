"""Replaying a journal: the controller is a function of its lines, so the same lines give back the very state."""
import argparse
import asyncio
import sys
import time
from collections.abc import Iterable
from dataclasses import dataclass, field, replace
from itertools import islice, takewhile
from math import inf
from pathlib import Path
from . import Trouble, journal
from .journal import OWN, Record
from .session import BATCH, Session, forcing, layout_of, words_of

KEPT = 2_000  # commands that are remembered
UNDOABLE = ("write", "force", "release", "change")  # what `undo` and a take back undo
NO_BASE = "the journal doesn't reach back to a load or a reset"

@dataclass
class Story:
    """What a journal tells beside the state: the text that runs, the moment, and who did what."""
    text: str = ""
    main: str = ""
    steps: int = 0
    moment: int = 0
    began: int = 1  # the number of the first command behind the newest load, reset or undo
    number: int = 1  # of the command that comes next
    commands: dict[int, Record] = field(default_factory=dict)
    undoable: list[tuple[Record, str]] = field(default_factory=list)  # each with the text before it

    def take(self, record: Record) -> None:
        """Goes on by a record: a line was answered so. Behind a scan nothing can be undone."""
        verb, (line, _, body) = record.verb, record.line.partition("\n")
        if record.number and verb != "load":
            record = replace(record, line=line)
            self.commands[record.number], self.number = record, record.number + 1
            self.commands.pop(record.number - KEPT, None)
        if record.state or record.reply.startswith("refused"):
            return
        if verb in ("load", "scan", "reset"):
            self.undoable.clear()
            self.moment = record.moment if record.reply == "ok" and verb != "reset" else self.moment
        if verb == "load":
            self.text, self.main, self.steps = body, line.split()[2], int(line.split()[3])
            self.began = self.number = record.number
        elif verb == "undo":
            undone, self.text = self.undoable.pop()
            undone.state, self.began = "undone", record.number + 1
        elif verb == "takeback":
            self.commands.get(int(line.split()[1]), record).state = "taken back"
        elif verb in UNDOABLE:
            self.undoable.append((record, self.text))
            self.text = body.rpartition("end_change")[0] if verb == "change" else self.text

    def can_go(self, number: int) -> bool:
        """Whether the journal without a command gives what would be if it had never been given."""
        record = self.commands.get(number)
        return (record is not None and number >= self.began and not record.state and record.verb in UNDOABLE
                and not record.reply.startswith("refused"))

    def base(self, forces: Iterable[str]) -> Record:
        """A load from which a replay can begin: of the text as it is behind a reset, with what is forced in it."""
        return Record(" ".join([f"load {self.moment} {self.main} {self.steps}", *forces]) + f"\n{self.text}", number=self.number)

class Replay:
    """Sends the records of a journal to a session, but for the commands that were taken back."""
    def __init__(self, skipped: Iterable[int] = ()) -> None:
        self.skipped = frozenset(skipped)
        self.session: Session | None = None
        self.story = Story()
        self.records = self.lines = 0
        self.others: list[Record] = []  # that are answered otherwise for want of a command that was taken back
        self._open: set[int] = set()  # the commands that are skipped, but weren't yet taken back when the record was written

    async def feed(self, records: Iterable[Record]) -> None:
        """Replays records behind those before, the first of which is a load. Where this fails the session is closed."""
        records = iter(records)
        try:
            while some := list(islice(records, BATCH)):
                if self.session is None:
                    _, moment, main, steps, *forces = words_of(some[0].line)
                    self.session = await Session.start(some[0].line.partition("\n")[2], main, int(steps))
                    scans = [f"scan {moment}"] if moment != "0" else []
                    await self.session.exchange([*forcing(forces), *scans, "reset"])
                elif any(record.verb == "load" for record in some):
                    raise Trouble("a reset came meanwhile")
                sent = [record for record in some if record.verb not in OWN and record.number not in self.skipped]
                replies = dict(zip(map(id, sent), await self.session.exchange([record.line for record in sent])))
                for record in some:
                    self._take(record, replies.get(id(record), record.reply))
                self.records, self.lines = self.records + len(some), self.lines + len(sent)
                await asyncio.sleep(0)
        except BaseException:
            await self.close()
            raise

    async def close(self) -> None:
        if self.session is not None:
            await self.session.close()

    def _take(self, record: Record, reply: str) -> None:
        """Takes over what a line did, and looks whether it is answered as the journal has it."""
        if reply != record.reply and not self._open:
            raise Trouble(f"`{record.line.splitlines()[0]}` is answered `{reply}`, and in the journal `{record.reply}`")
        if reply != record.reply and record.number:
            self.others.append(record)
        record.reply = reply
        if record.number in self.skipped:
            record.state = "taken back"
            self._open.add(record.number)
        elif record.verb == "takeback":
            self._open.discard(int(record.line.split()[1]))
        self.story.take(record)

async def restore(folder: Path, moment: float = inf, without: int = -1) -> Replay:
    """The state of a journal up to a moment, as it would be without a command. It has no session where there is no journal."""
    if next(journal.read(folder), None) is None:
        return Replay()
    heads = journal.bases(folder)
    if not heads:
        raise Trouble(NO_BASE)
    reaching = [number for number, base in heads.items() if base.moment <= moment]
    if not reaching:
        raise Trouble(f"a replay can go back to moment {min(base.moment for base in heads.values())}, and no further")

    def records() -> Iterable[Record]:
        found = journal.read(folder, reaching[-1])
        return found if moment == inf else takewhile(lambda record: record.moment <= moment, found)

    replay = Replay([without, *(int(record.line.split()[1]) for record in records() if record.verb == "takeback")])
    await replay.feed(records())
    return replay

async def show(folder: Path, moment: float, words: list[str]) -> None:
    """Prints the status and the leaves whose paths have these words; how fast the replay was goes to standard error."""
    began = time.monotonic()
    replay = await restore(folder, moment)
    if replay.session is None:
        raise Trouble("there is no journal")
    took, leaves = time.monotonic() - began, await layout_of(replay.story.text, replay.story.main)
    wanted = [path for path in leaves if all(word.upper() in path.upper() for word in words)]
    print(*await replay.session.exchange(["status", *(f"show {path}" for path in wanted)]), sep="\n")
    await replay.close()
    print(f"{replay.lines} lines in {took:.2f} s: {replay.lines / took:.0f} lines a second", file=sys.stderr)

def main() -> None:
    parser = argparse.ArgumentParser(prog="host/replay", description="Shows all leaves as they were at a moment.")
    parser.add_argument("journal", type=Path, help="the folder of the journal, or the plant's state folder")
    parser.add_argument("--at", type=int, default=inf, metavar="MOMENT", help="in ms, as scans have it; else the end")
    parser.add_argument("words", nargs="*", help="what the paths that are shown have in them")
    words = parser.parse_intermixed_args()
    folder = words.journal / "journal" if (words.journal / "journal").is_dir() else words.journal
    asyncio.run(show(folder, words.at, words.words))
