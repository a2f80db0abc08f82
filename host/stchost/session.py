"""The program `stc`: how it is found, one session with it, and what it says of a text."""
import asyncio
import os
import re
import tempfile
from asyncio.subprocess import DEVNULL, PIPE, Process, create_subprocess_exec
from collections.abc import AsyncIterator, Iterable, Iterator, Sequence
from contextlib import asynccontextmanager
from functools import cache
from pathlib import Path
from typing import Self
from . import Trouble

ROOT = Path(__file__).resolve().parents[2]
PATIENCE = 120.0  # seconds in which a reply has to come
TEXT_LIMIT, LINE_LIMIT = 1_048_576, 4_096  # bytes
BATCH = 250  # lines that are sent at one go
CODE = ("utf-8", "surrogateescape")  # how bytes that are no text are kept

def program() -> str:
    """The program's file: what STC names, or the repository's own `stc`."""
    return os.environ.get("STC") or str(ROOT / "stc")

class Gone(Trouble):
    """The program ended, or gave no reply in time, or refused a text that is to be loaded."""

def words_of(line: str) -> list[str]:
    """The words of a line's first row, as `stc` cuts it."""
    return [word for word in line.partition("\n")[0].replace("\t", " ").split(" ") if word]

def checked(line: str) -> str:
    """A line that gets exactly one reply. Trouble for any other."""
    if not words_of(line) or not {"\0", "\r", "\n"}.isdisjoint(line) or len(line.encode(*CODE)) > LINE_LIMIT:
        raise Trouble("a line has words, no control characters, and at most 4,096 bytes")
    return line

def change_line(text: str, renames: Sequence[str]) -> str:
    """The line of a change, which has its text and `end_change` behind line feeds."""
    ends = any(words_of(row.rstrip("\r")) == ["end_change"] for row in text.split("\n"))
    if ends or "\0" in text or not all("=" in word for word in renames):
        raise Trouble("a change has words OLD=NEW, a text, and no line `end_change` in it")
    return checked(" ".join(["change", *renames])) + f"\n{text}" + "\n" * (not text.endswith("\n")) + "end_change"

@asynccontextmanager
async def _begun(verb: str, text: str, main: str, *words: str, stderr: int = DEVNULL) -> AsyncIterator[tuple[Process, str]]:
    """A process of `stc` over a file that has a text, and the name of that, as long as it is wanted."""
    with tempfile.NamedTemporaryFile(prefix="stc-host-", suffix=".st") as file:
        file.write(text.encode(*CODE))
        file.flush()
        command = (program(), verb, file.name, "--program", main, *words)  # in a session of its own no Ctrl-C ends it
        yield await create_subprocess_exec(*command, stdin=PIPE, stdout=PIPE, stderr=stderr, start_new_session=True), file.name

class Session:
    """One process `stc run`, which a single writer speaks to."""
    def __init__(self, process: Process) -> None:
        assert process.stdin is not None and process.stdout is not None
        self.process, self._stdin, self._stdout = process, process.stdin, process.stdout

    @classmethod
    async def start(cls, text: str, main: str, steps: int) -> Self:
        """Loads a text. Gone where it is refused."""
        async with _begun("run", text, main, "--steps", str(steps)) as (process, _):
            session = cls(process)
            reply = (await session.exchange(["status"]))[0]
        if reply.startswith("refused"):
            await session.close()
            raise Gone(f"{reply}\n{(await ask('check', text, main))[1]}")
        return session

    async def exchange(self, lines: Sequence[str]) -> list[str]:
        """Sends lines, each of which gets one reply, and gives the replies in order."""
        count, data = len(lines), bytearray()
        try:
            self._stdin.write("".join(line + "\n" for line in lines).encode(*CODE))
            async with asyncio.timeout(PATIENCE):
                while count > 0:
                    some = await self._stdout.read(1 << 16)
                    if not some:
                        raise Gone("stc ended")
                    count -= some.count(b"\n")
                    data += some
        except (OSError, asyncio.TimeoutError) as error:
            raise Gone(f"stc gives no reply: {error}") from error
        return data.decode(*CODE).split("\n")[:-1]

    async def close(self) -> None:
        """Ends the session, and the process with it."""
        self._stdin.close()
        killing = asyncio.get_running_loop().call_later(2, self.process.kill)
        await self.process.wait()
        killing.cancel()

def forcing(forces: Iterable[str]) -> Iterator[str]:
    """Lines that force what words P:=V say. No more than 256 commands can be undone, but a reset lets more be given."""
    for count, word in enumerate(forces, 1):
        yield "force " + word.replace(":=", " ")
        if count % BATCH == 0:
            yield "reset"

async def ask(verb: str, text: str, main: str, lines: Iterable[str] = ()) -> tuple[str, str]:
    """What `stc` writes of a text and lines on standard output, and what it says for people."""
    async with _begun(verb, text, main, stderr=PIPE) as (process, name):
        data = "".join(line + "\n" for line in lines).encode(*CODE)
        answer, said = await asyncio.wait_for(process.communicate(data), PATIENCE)
    return answer.decode(*CODE), said.decode(*CODE).replace(name, "program").strip()

async def layout_of(text: str, main: str) -> dict[str, str]:
    """The types of a text's leaves by their paths, in order. Gone where it is refused."""
    answer, said = await ask("layout", text, main)
    if answer.startswith("refused"):
        raise Gone(answer + said)
    return {path: kind for _, _, kind, path in (line.split(" ", 3) for line in answer.splitlines())}

@cache
def _sentences() -> dict[str, str]:
    """What the numbers of refusals and faults mean, as `docs/REFUSALS.md` has it."""
    text = (ROOT / "docs" / "REFUSALS.md").read_text("utf-8")
    found = re.findall(r"^### ([A-Z]\d+)\n\n(.+?)(?=\n\nExample|\n\n#|\Z)", text, re.S | re.M)
    return {"M": "There was no memory for it."} | {number: " ".join(sentence.split()) for number, sentence in found}

def explain(reply: str) -> str:
    """A sentence for a reply that refuses or tells a fault; empty for any other."""
    match = re.match(r"(?:refused|fault|halted) ([A-Z]\d*)", reply)
    return _sentences().get(match[1], "") if match else ""
