"""A terminal for those who live there: the session's commands and those of the host, with history and completion."""
import argparse
import asyncio
import json
import re
import sys
from pathlib import Path
from typing import Any
import aiohttp
from prompt_toolkit import PromptSession
from prompt_toolkit.completion import WordCompleter
from prompt_toolkit.history import FileHistory
from prompt_toolkit.patch_stdout import patch_stdout
from . import Trouble, access
from .plant import PlantTable, load
from .session import TEXT_LIMIT

HELP = """show P | write P V | force P V | release P | undo | reset | status   as a session has them
list [WORDS]                variables whose path has all of these words, with their values; --forced has those alone
watch P ..                  shows each new value of these; `watch` alone ends it
preview FILE [OLD=NEW ..]   what a change to this text would do
change FILE [OLD=NEW ..]    does it
hold | go                   holds the scans, or lets them go on
log | takeback N            who did what; takes command N back
help | quit                 # begins a comment"""
VERBS = re.findall(r"(?:^|\| )(\w+)", HELP, re.M)
Answer = dict[str, Any]

class Console:
    """One connection to a plant's host. Each command is answered before the next one is taken."""
    def __init__(self, socket: aiohttp.ClientWebSocketResponse) -> None:
        self.socket = socket
        self.answers: asyncio.Queue[Answer] = asyncio.Queue()
        self.watched: list[str] = []
        self.failed, self.going, self.notice = False, True, "running"

    async def listen(self) -> None:
        """Takes what the host sends: answers, and new values of what is watched."""
        async for message in self.socket:
            news = json.loads(message.data)
            if "reply" in news:
                self.watched = news.get("watched", self.watched)
                self.answers.put_nowait(news)
            elif "status" in news and news["status"]["notice"] != self.notice:
                self.notice = news["status"]["notice"]
                print(f"the program is {self.notice}", file=sys.stderr)
            for path, (text, forced) in news.get("values", {}).items():
                if path in self.watched:
                    print(path, "=", text, forced, flush=True)
        self.going = False
        self.answers.put_nowait({"reply": "the host has ended", "bad": True})

    async def ask(self, line: str) -> Answer:
        await self.socket.send_str(line)
        return await self.answers.get()

    async def obey(self, line: str) -> None:
        """Does one command, and prints what is answered."""
        verb, *words = line.split() or ["#"]
        if verb == "help":
            print(HELP)
        elif verb == "quit":
            self.going = False
        elif verb in ("preview", "change") and words:
            try:
                await self.socket.send_bytes(Path(words[0]).read_bytes()[:TEXT_LIMIT + 1])
            except OSError as error:
                return self.tell({"reply": str(error), "bad": True})
            self.tell(answer := await self.ask(" ".join(["preview", *words[1:]])))
            if verb == "change" and not answer["bad"]:
                self.tell(await self.ask("change"))
        elif not verb.startswith("#"):
            self.tell(await self.ask(line))

    def tell(self, answer: Answer) -> None:
        self.failed |= answer["bad"]
        reply = answer["reply"] + (f"  ({answer['why']})" if answer.get("why") else "")
        for row in [[answer.get("said", "")], *answer.get("rows", []), [reply]]:
            if any(row):
                print(*filter(None, row), flush=True)

async def talk(console: Console, plant: PlantTable) -> None:
    """Takes commands: from a terminal with history and completion, or from a script on standard input."""
    if not sys.stdin.isatty():
        for line in sys.stdin:
            if console.going:
                await console.obey(line.strip())
        return
    paths: list[str] = []
    words = WordCompleter(lambda: [*VERBS, *paths], ignore_case=True, WORD=True)
    history = FileHistory(str(plant.state / "console.history"))
    prompt: PromptSession[str] = PromptSession(history=history, completer=words, complete_while_typing=False)
    with patch_stdout():
        while console.going:
            paths = (await console.ask("paths")).get("paths", [])
            try:
                await console.obey(await prompt.prompt_async(f"{plant.name}> "))
            except KeyboardInterrupt:
                continue
            except EOFError:
                return

async def connect(plant: PlantTable, name: str | None) -> int:
    """Talks to the host of a plant, with the token of a name, or else the first one to act."""
    tokens = [token for token, person in access.load(plant.tokens).items() if name in (None, person.name)]
    if not tokens:
        raise Trouble(f"{plant.tokens}: there is no token of {name}")
    url = f"http://{plant.page.host}:{plant.page.port}/live"
    async with aiohttp.ClientSession() as http, http.ws_connect(url, protocols=tokens[:1], max_msg_size=1 << 24) as socket:
        if refused := (await socket.receive_json()).get("refused"):
            raise Trouble(refused)
        console = Console(socket)
        listener = asyncio.create_task(console.listen())
        await talk(console, plant)
        listener.cancel()
    return 3 if console.failed else 0

def main() -> int:
    parser = argparse.ArgumentParser("host/console", description="A terminal for a plant that runs; scripts by standard input.")
    parser.add_argument("plant", help="the plant's file, with or without .toml")
    parser.add_argument("--as", dest="name", help="whose token of the plant's file of tokens")
    words = parser.parse_args()
    return asyncio.run(connect(load(words.plant), words.name))
