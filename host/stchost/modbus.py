"""Modbus TCP both ways, by the messages of `pymodbus`: remote devices, and a server that HMIs and SCADA read and write."""
import asyncio
import logging
import struct
from collections.abc import Sequence
from contextlib import suppress
from functools import partial
from ipaddress import ip_address
from itertools import chain, islice
from typing import Any
from pymodbus.client.base import ModbusClientProtocol
from pymodbus.factory import ServerDecoder
from pymodbus.framer.socket_framer import ModbusSocketFramer
from pymodbus.pdu import ExceptionResponse, ModbusExceptions as Code
from . import Trouble
from .devices import Device
from .engine import Busy, Engine
from .plant import BITS, WRITING, MapTable, PointTable, ServerTable
from .values import fits, pack, size_of, to_number, to_text, unpack

logging.getLogger("pymodbus").setLevel(logging.CRITICAL)
PATIENCE = 5.0  # seconds that a device has to answer, and a client to end its frame and take the answer
READ = {"coil": "read_coils", "discrete": "read_discrete_inputs",
        "input": "read_input_registers", "holding": "read_holding_registers"}
TABLE = {1: "coil", 2: "discrete", 3: "holding", 4: "input", 5: "coil", 6: "holding", 15: "coil", 16: "holding"}
CODES = {"refused O1": Code.IllegalAddress, "refused O2": Code.IllegalAddress, "refused O3": Code.IllegalValue}
RUNNING = "$running"  # in place of a path: whether the program runs

class Remote(Device):
    """A device behind a connection that is made when it is wanted, and anew a second after it was lost."""
    _protocol: Any = None

    async def read(self) -> dict[str, int]:
        """Reads all inputs, in as few requests as may be."""
        numbers: dict[str, int] = {}
        for run in self._runs(self.inputs):
            first = run[0].address
            answer = await self._ask(READ[str(run[0].table)], first, self._end(run[-1]) - first)
            words = answer.bits if run[0].table in BITS else answer.registers
            for point in run:
                numbers[point.path] = unpack(point, self.types[point.path], words[point.address - first:self._end(point) - first])
        return numbers

    async def write(self, numbers: dict[str, int]) -> None:
        """Writes all outputs, whether they changed or not, so that a device that was restarted has them too."""
        for run in self._runs(self.outputs):
            words = [word for point in run for word in pack(point, self.types[point.path], numbers[point.path])]
            await self._ask("write_coils" if run[0].table == "coil" else "write_registers", run[0].address, words)

    async def close(self) -> None:
        if self._protocol is not None:
            await self._protocol.close()
            self._protocol = None

    def _end(self, point: PointTable) -> int:
        """The address behind a point."""
        return point.address + size_of(point, self.types[point.path])

    def _runs(self, points: Sequence[PointTable]) -> list[list[PointTable]]:
        """The points with neighbouring addresses together, as one request takes them."""
        runs: list[list[PointTable]] = []
        for point in sorted(points, key=lambda point: (point.table, point.address)):
            near = runs and (runs[-1][-1].table, self._end(runs[-1][-1])) == (point.table, point.address)
            if near and self._end(point) - runs[-1][0].address <= (1_000 if point.table in BITS else 100):
                runs[-1].append(point)
            else:
                runs.append([point])
        return runs

    async def _ask(self, call: str, *words: object) -> Any:
        async with self.turn:
            try:
                async with asyncio.timeout(PATIENCE):
                    if self._protocol is None or not self._protocol.connected:
                        made = partial(ModbusClientProtocol, framer=ModbusSocketFramer)
                        loop = asyncio.get_running_loop()
                        _, self._protocol = await loop.create_connection(made, self.file.host, self.file.port)
                    answer = await getattr(self._protocol, call)(*words, slave=self.file.unit)
            except Exception:
                await self.close()
                await asyncio.sleep(1)
                raise
        if answer.isError():
            raise ValueError(f"the device answers {answer}")
        return answer

class Tables:
    """What the plant's file maps, as one request of pymodbus sees it: what it writes is kept for later."""
    def __init__(self, places: dict[tuple[str, int], MapTable], engine: Engine) -> None:
        self.places, self.engine = places, engine
        self.items: list[tuple[MapTable, str]] = []  # each with its type
        self.written: list[int] = []

    def validate(self, function: int, first: int, count: int) -> bool:
        """Whether variables lie in these places, each whole and without a gap."""
        place = first
        while place < first + count:
            item = self.places.get((TABLE[function], place))
            kind = item and ("BOOL" if item.path == RUNNING else self.engine.types.get(item.path))
            if not item or not kind:
                return False
            self.items.append((item, kind))
            place += size_of(item, kind)
        return place == first + count

    def getValues(self, function: int, first: int, count: int) -> list[int]:  # noqa: N802
        """What variables have behind the last scan, as it lies in coils or registers."""
        status, values = self.engine.status, self.engine.values
        numbers = (int(status["state"] == "running") if item.path == RUNNING else to_number(kind, values[item.path][0])
                   for item, kind in self.items)
        return self.written or [word for (item, kind), number in zip(self.items, numbers) for word in pack(item, kind, number)]

    def setValues(self, function: int, first: int, values: list[int]) -> None:  # noqa: N802
        self.written = values

    async def write(self, who: str) -> int:
        """Sets inputs, and writes all else by lines of the session. The answer is the exception of the first refusal, or 0."""
        words, engine = iter(self.written), self.engine
        for item, kind in self.items:
            number = unpack(item, kind, list(islice(words, size_of(item, kind))))
            if not fits(kind, number):
                return int(Code.IllegalValue)
            if item.path in engine.inputs.points:
                await engine.asked(engine.set_input(item.path, number))
                continue
            reply = await engine.asked(engine.operate(who, f"write {item.path} {to_text(kind, number)}"))
            if reply != "ok":
                return int(CODES.get(reply, Code.SlaveFailure))
        return 0

class ModbusServer:
    """Serves the mapped variables to the clients that are allowed, each with one request at a time."""
    def __init__(self, file: ServerTable, engine: Engine) -> None:
        self.file, self.engine, self.decoder, self.clients = file, engine, ServerDecoder(), 0
        self.places = {(str(item.table), item.address): item for item in file.map}

    async def start(self) -> int:
        """Serves from now on. The answer is the port."""
        server = await asyncio.start_server(self._serve, self.file.host, self.file.port, limit=1_024, backlog=16)
        return int(server.sockets[0].getsockname()[1])

    async def _serve(self, reader: asyncio.StreamReader, writer: asyncio.StreamWriter) -> None:
        peer = writer.get_extra_info("peername")[0]
        allowed = set[int](chain(*(entry.functions for entry in self.file.allow if ip_address(peer) in entry.address)))
        room, self.clients = self.clients < self.file.clients, self.clients + 1
        try:
            with suppress(asyncio.TimeoutError, asyncio.IncompleteReadError, OSError):
                while allowed and room:
                    await self._talk(reader, writer, allowed, f"modbus {peer}")
        finally:
            self.clients -= 1
            writer.transport.abort()

    async def _talk(self, reader: asyncio.StreamReader, writer: asyncio.StreamWriter, allowed: set[int], who: str) -> None:
        """One request and its answer. OSError where it is none."""
        head = await asyncio.wait_for(reader.readexactly(7), self.file.idle)
        transaction, protocol, length, unit = struct.unpack(">HHHB", head)
        if protocol != 0 or not 2 <= length <= 254:
            raise OSError("this is no frame")
        answer = await self._answer(await asyncio.wait_for(reader.readexactly(length - 1), PATIENCE), allowed, who)
        data = bytes([answer.function_code]) + answer.encode()
        writer.write(struct.pack(">HHHB", transaction, 0, len(data) + 1, unit) + data)
        await asyncio.wait_for(writer.drain(), PATIENCE)

    async def _answer(self, data: bytes, allowed: set[int], who: str) -> Any:
        """pymodbus's answer to a request, or the exception that it is refused by."""
        tables = Tables(self.places, self.engine)
        if data[0] not in allowed:
            return ExceptionResponse(data[0], Code.IllegalFunction)
        try:
            if data[0] == 5 and data[3:] not in (b"\0\0", b"\xff\0"):  # pymodbus takes any other number for off
                raise LookupError("no value of a coil")
            answer = self.decoder.decode(data).execute(tables)
            refused = await tables.write(who) if data[0] in WRITING and not answer.isError() else 0
            return ExceptionResponse(data[0], refused) if refused else answer
        except (struct.error, LookupError):
            return ExceptionResponse(data[0], Code.IllegalValue)
        except Trouble as error:
            return ExceptionResponse(data[0], Code.SlaveBusy if isinstance(error, Busy) else Code.SlaveFailure)
