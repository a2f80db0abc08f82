"""The journal: each line that may change something, with its reply, in pieces with checksums, as `docs/HOST.md` has them."""
import asyncio
import fcntl
import os
import re
import time
import zlib
from collections.abc import Iterator
from contextlib import suppress
from dataclasses import dataclass
from functools import partial
from math import inf
from pathlib import Path
from subprocess import PIPE, Popen
from typing import Any, BinaryIO
from . import Trouble
from .plant import JournalTable

PIPE_SIZE = 1 << 20  # bytes that may wait for the disk before a scan does
WRITER = ["dd", "bs=64K", "conv=fsync", "status=none"]  # copies what comes by its pipe, and sees it on the disk at the end
NAME = re.compile(r"(\d{8})-([\da-f]{8})\.journal")
# Lines that are the host's own, and no session's: `load MOMENT MAIN STEPS P:=V ..` with a text behind it that was loaded or
# reset, and what is forced in it; and three that operators give
OWN = ("load", "takeback", "hold", "go")

@dataclass
class Record:
    """A line and its reply. An operator's has a number, when it was given and by whom; a load has the number that comes next."""
    line: str
    reply: str = "ok"
    number: int = 0
    wall: int = 0  # ms
    who: str = ""
    state: str = ""  # of an operator's: empty, `undone` or `taken back`

    def __post_init__(self) -> None:
        self.verb = self.line.split(None, 1)[0]

    @property
    def moment(self) -> int:
        """The moment of a load or a scan, and 0 for others."""
        return int(self.line.split(None, 2)[1]) if self.verb in ("load", "scan") else 0

def pieces(folder: Path) -> list[tuple[int, int, Path]]:
    """The pieces of a journal in order, each with its number and the checksum that it goes on from."""
    found = sorted(folder.iterdir()) if folder.is_dir() else []
    if other := [path.name for path in found if not NAME.fullmatch(path.name)]:
        raise Trouble(f"the journal has {other[0]}, which is no piece of it: --fresh sets the journal aside")
    return [(int(match[1]), int(match[2], 16), path) for path in found if (match := NAME.fullmatch(path.name))]

def bases(folder: Path) -> dict[int, Record]:
    """The loads and resets with which pieces begin, so that a replay can begin there, by the numbers of these pieces."""
    heads = ((number, next(read(folder, number), None)) for number, _, _ in pieces(folder))
    return {number: record for number, record in heads if record and record.verb == "load"}

def read(folder: Path, first: int = 0) -> Iterator[Record]:
    """The records from piece `first` on. What lacks its end in the last piece is none. Trouble where one is damaged."""
    found = [piece for piece in pieces(folder) if piece[0] >= first]
    crc = found[0][1] if found else 0
    for number, begun, path in found:
        count, place = 1, 0
        try:
            if crc != begun:
                raise ValueError("records before it are missing")
            with path.open("rb") as file:
                for line in file:
                    if number == found[-1][0] and not line.endswith(b"\n"):
                        return
                    crc = zlib.crc32(line[9:-1], crc)
                    if line[:9] != b"%08x " % crc or line[-1:] != b"\n":
                        raise ValueError("its checksum doesn't fit")
                    fields = [field.decode("unicode_escape") for field in line[9:-1].split(b"\t")]
                    text, reply, index, wall, who = [*fields, "0", "0", ""][:5]
                    yield Record(text, reply, int(index), int(wall), who)
                    count, place = count + 1, place + len(line)
        except ValueError as error:
            raise Trouble(f"the journal is damaged: {path.name}: record {count}, from byte {place} on: {error}") from error

class Journal:
    """Appends to the journal in a folder, through a pipe to a process that outlives this one: so nobody waits for the disk."""
    def __init__(self, folder: Path, file: JournalTable) -> None:
        folder.mkdir(mode=0o700, parents=True, exist_ok=True)
        self.folder, self.file = folder, file
        self.trouble = ""  # why nothing more can be kept
        self.base: int | None = None  # the piece where a replay begins; None where no load and no reset is left
        self.records = 0  # from there on
        self._sizes: dict[int, int] = {}  # of the pieces, in order
        self._file: BinaryIO | None = None  # it is closed once nobody flushes it any more
        self._writers: list[Popen[bytes]] = []  # the last one is that of the newest piece; those before come to their end
        self._crc, self._synced = 0, time.monotonic()

    def resume(self, records: int) -> None:
        """Goes on behind the last whole record, and cuts off a torn one. So many were read from the newest load or reset on."""
        self.records, self.base = records, max(bases(self.folder), default=None)
        self._sizes = {number: path.stat().st_size for number, _, path in pieces(self.folder)}
        for number, begun, path in pieces(self.folder)[-1:]:
            whole, _, torn = path.read_bytes().rpartition(b"\n")
            os.truncate(path, self._sizes[number] - len(torn))
            self._crc = int(whole.rpartition(b"\n")[2][:8], 16) if whole else begun
            self._open(path, number, self._sizes[number] - len(torn))

    def append(self, record: Record) -> None:
        """Appends a record; with a load a piece begins. Once one couldn't be written no more is kept, and `trouble` says so."""
        if self.trouble:
            return
        number, load = next(reversed(self._sizes), 0), record.verb == "load"
        try:
            if load or self._sizes[number] + 64 > self.file.piece:
                number += 1
                self._open(self.folder / f"{number:08}-{self._crc:08x}.journal", number, 0)
            if load:
                self.base, self.records = number, 0
            fields = (record.line, record.reply, record.number, record.wall, record.who)[:5 if record.number else 2]
            body = b"\t".join(str(field).encode("unicode_escape") for field in fields)
            self._crc = zlib.crc32(body, self._crc)
            pipe = self._writers[-1].stdin
            assert pipe is not None
            pipe.write(b"%08x %s\n" % (self._crc, body))
            pipe.flush()
            self._sizes[number] += len(body) + 10
            self.records += 1
        except OSError as error:
            self.trouble = f"nothing is kept any more: {error}"

    async def written(self) -> None:
        """Waits until what was appended stands in the files. OSError where it never will."""
        while (any(writer.poll() is None for writer in self._writers[:-1])
               or self._file and os.fstat(self._file.fileno()).st_size < next(reversed(self._sizes.values()))):
            if self._writers[-1].poll() is not None:
                raise OSError("the journal's writer has ended")
            await asyncio.sleep(0.001)

    async def settle(self) -> None:
        """Waits until what was appended is on the disk, or sees to it, as the plant's file has it."""
        if self.file.sync == "always" and not self.trouble:
            await self._sync()
        elif self.file.sync == "second" and time.monotonic() > self._synced + 1:
            self._synced = inf  # until it is done; nobody waits for it
            self._syncing = asyncio.create_task(self._sync())

    async def _sync(self) -> None:
        try:
            await self.written()
            if self._file is not None:
                await asyncio.to_thread(os.fsync, self._file)
            self._synced = time.monotonic()
        except OSError as error:
            self.trouble = f"nothing is kept any more: {error}"

    def told(self) -> dict[str, Any]:
        """How large the journal is, and whether a replay can begin in it."""
        return {"bytes": sum(self._sizes.values()), "pieces": len(self._sizes),
                "reaches": self.base is not None, "trouble": self.trouble}

    def close(self) -> None:
        """Ends the last piece, and waits until all are on the disk."""
        self._end()
        for writer in self._writers:
            writer.wait()

    def _open(self, path: Path, number: int, size: int) -> None:
        """Goes on with a piece, and ends the one before. The oldest ones go where there are too many."""
        self._end()
        self._sizes[number] = size
        self._file = open(path, "ab", opener=partial(os.open, mode=0o600))
        made = Popen(WRITER, stdin=PIPE, stdout=self._file, start_new_session=True, close_fds=False)
        fcntl.fcntl(made.stdin or -1, fcntl.F_SETPIPE_SZ, PIPE_SIZE)
        self._writers = [*(writer for writer in self._writers if writer.poll() is None), made]
        for oldest, _, path in pieces(self.folder)[:-1]:
            if sum(self._sizes.values()) > self.file.limit - self.file.piece:
                path.unlink()
                del self._sizes[oldest]
                self.base = None if self.base == oldest else self.base

    def _end(self) -> None:
        """Ends the piece, and waits for nothing: its writer goes on until all is on the disk."""
        if self._file is not None:
            self._file = None
            with suppress(OSError):
                self._writers[-1].stdin.close()  # type: ignore[union-attr]
