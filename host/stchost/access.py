"""Who may look and who may act: tokens from a file that only its owner reads, and how wrong ones are slowed down."""
import asyncio
import hmac
import os
import re
import secrets
import time
import tomllib
from pathlib import Path
from typing import NamedTuple
from . import Trouble

LONGEST, FORGOTTEN = 20.0, 60.0  # seconds that a wrong token waits at most, and after which it doesn't count any more
TOKEN = re.compile(r"[\w-]{16,200}", re.ASCII)

class Person(NamedTuple):
    name: str
    acts: bool

def make(path: Path) -> None:
    """Writes a file with one token to look and one to act, where there is none."""
    if not path.exists():
        path.parent.mkdir(mode=0o700, parents=True, exist_ok=True)
        with os.fdopen(os.open(path, os.O_WRONLY | os.O_CREAT | os.O_EXCL, 0o600), "w") as file:
            file.write(f'[look]\nvisitor = "{secrets.token_urlsafe(24)}"\n\n[act]\noperator = "{secrets.token_urlsafe(24)}"\n')

def load(path: Path) -> dict[str, Person]:
    """The persons by their tokens, who may act first. Trouble where the file isn't its owner's alone, or is wrong."""
    try:
        if path.stat().st_mode & 0o077:
            raise ValueError("others may read this file of tokens: chmod 600 it")
        data = tomllib.loads(path.read_text("utf-8"))
        found = {str(token): Person(name, key == "act") for key in ("act", "look") for name, token in data.get(key, {}).items()}
        if wrong := [person.name for token, person in found.items() if not TOKEN.fullmatch(token)]:
            raise ValueError(f"the token of {wrong[0]} has to be of 16 letters, digits, - and _, or more")
        return found
    except (OSError, ValueError) as error:
        raise Trouble(f"{path}: {error}") from error

class Gate:
    """Tells who has a token. An address that gave wrong ones waits longer each time."""
    def __init__(self, persons: dict[str, Person], pause: float = 0.5) -> None:
        self._persons, self._pause = persons, pause
        self._wrong: dict[str, tuple[int, float]] = {}

    async def who(self, token: str, address: str) -> Person | None:
        """The person with this token, or None. Right tokens aren't slowed down by others' wrong ones."""
        given = token.encode("utf-8", "replace")
        if found := [person for known, person in self._persons.items() if hmac.compare_digest(known.encode(), given)]:
            return found[0]
        now = time.monotonic()
        self._wrong = {key: entry for key, entry in self._wrong.items() if now - entry[1] < FORGOTTEN}
        count, _ = self._wrong.get(address, (0, now))
        self._wrong[address] = (count + 1, now)
        await asyncio.sleep(min(LONGEST, self._pause * 2.0 ** count))
        return None
