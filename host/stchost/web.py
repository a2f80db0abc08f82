"""The operators' page and console: one WebSocket a client, which sends lines of commands, and texts of programs as bytes."""
import asyncio
from collections.abc import Awaitable, Callable
from contextlib import suppress
from datetime import datetime
from pathlib import Path
from typing import Any
from aiohttp import WSMsgType, web
from . import Trouble
from .access import Gate, Person
from .change import preview
from .engine import NONE, QUIET, Engine
from .session import CODE, TEXT_LIMIT, explain, words_of

PAGE = Path(__file__).resolve().parents[1] / "page"
FILES = {"/": "index.html", "/page.css": "page.css", "/page.js": "page.js"}
MESSAGE_LIMIT = 32_768  # characters of a line
WATCH_LIMIT, LIST_LIMIT = 500, 200  # leaves that a client looks at, and that one search gives
FIRST_TIME, SEND_TIME = 15.0, 10.0  # seconds until a connection asks for something, and a client takes what it is sent
PREVIEWS = 2  # that are worked out side by side
SPARE = 100  # connections beside two for each client
HEADERS = {
    "Content-Security-Policy": "default-src 'none'; script-src 'self'; style-src 'self'; img-src 'self' data:; "
                               "connect-src 'self'; base-uri 'none'; form-action 'none'; frame-ancestors 'none'",
    "X-Content-Type-Options": "nosniff", "Referrer-Policy": "no-referrer", "Cache-Control": "no-store",
}
LOOKS = (*QUIET, "watch", "list", "paths", "log", "program")  # what changes nothing
GONE = (asyncio.TimeoutError, ConnectionError)  # a client that is slow, or has left
Handler = Callable[[web.Request], Awaitable[web.StreamResponse]]
Answer = dict[str, Any]

class Client:
    """One page or console, and what it was told last."""
    def __init__(self, person: Person, socket: web.WebSocketResponse) -> None:
        self.person, self.socket = person, socket
        self.paths: list[str] = []  # that it looks at
        self.sent: dict[str, tuple[str, str]] = {}
        self.changed = asyncio.Event()
        self.text = ""  # of a program, which it sent for a preview
        self.preview: tuple[str, str] | None = None  # the line that may be done behind it, and the text that it changes

    async def send(self, news: Answer) -> None:
        await asyncio.wait_for(self.socket.send_json(news), SEND_TIME)

class Web:
    """Serves the page. Each client has one line at a time, and who is slow is waited for by nobody else."""
    def __init__(self, engine: Engine, gate: Gate) -> None:
        self.engine, self.file, self.gate = engine, engine.plant.page, gate
        self.clients: set[Client] = set()
        self.port = 0
        self._previewing = asyncio.Semaphore(PREVIEWS)
        app = web.Application(middlewares=[self._guard])
        app.add_routes([web.get(path, self._page) for path in FILES] + [web.get("/live", self._live)])
        self._runner = web.AppRunner(app, access_log=None, keepalive_timeout=FIRST_TIME)

    async def start(self) -> None:
        await self._runner.setup()
        loop = asyncio.get_running_loop()
        server = await loop.create_server(self._connection, self.file.host, self.file.port, backlog=32)
        self.port = server.sockets[0].getsockname()[1]

    def _connection(self) -> asyncio.BaseProtocol:
        """A connection. One too many is closed at once, and one that asks for nothing in time then."""
        server = self._runner.server
        assert server is not None
        made, room = server(), 2 * self.file.clients + SPARE - len(server.connections)

        def close_idle() -> None:
            if made.transport is not None and made._current_request is None:
                made.force_close()

        asyncio.get_running_loop().call_later(FIRST_TIME if room > 0 else 0, close_idle)
        return made

    @web.middleware
    async def _guard(self, request: web.Request, handler: Handler) -> web.StreamResponse:
        """Refuses requests for other hosts, and those that another origin's page makes."""
        hosts = [*(f"{name}:{self.port}" for name in ("127.0.0.1", "localhost", "[::1]", self.file.host)), *self.file.names]
        origins = (None, f"http://{request.host}", f"https://{request.host}")
        if request.host not in hosts or request.headers.get("Origin") not in origins:
            raise web.HTTPForbidden(text="this origin isn't served\n")
        response = await handler(request)
        if not response.prepared:
            response.headers.update(HEADERS)
        return response

    async def _page(self, request: web.Request) -> web.StreamResponse:
        return web.FileResponse(PAGE / FILES[request.path])

    async def _live(self, request: web.Request) -> web.StreamResponse:
        """A client. Its token stands where a browser can put one: it is asked for as the protocol of the WebSocket."""
        token = request.headers.get("Sec-WebSocket-Protocol", "")
        person = await self.gate.who(token, request.remote or "")
        limit = TEXT_LIMIT + 2 if person and person.acts else MESSAGE_LIMIT
        socket = web.WebSocketResponse(max_msg_size=limit, heartbeat=20, compress=False, protocols=(token,))
        await socket.prepare(request)
        if person is None or len(self.clients) >= self.file.clients:
            await socket.send_json({"refused": "too many clients" if person else "this token isn't known"})
            await socket.close()
            return socket
        client = Client(person, socket)
        self.clients.add(client)
        teller = asyncio.create_task(self._tell(client))
        with suppress(*GONE):
            async for message in socket:
                if message.type == WSMsgType.BINARY:
                    client.text = message.data.decode(*CODE)
                elif message.type == WSMsgType.TEXT and len(message.data) <= MESSAGE_LIMIT:
                    await client.send(await self._answer(client, message.data))
                    client.changed.set()
                else:
                    break
        teller.cancel()
        self.clients.discard(client)
        self.engine.watched.pop(client, None)
        return socket

    async def _tell(self, client: Client) -> None:
        """Sends what the plant is, and then what has changed, as often as the plant's file says, or as the client takes it."""
        plant, engine = self.engine.plant, self.engine
        with suppress(*GONE):
            await client.send({
                "hello": client.person.name, "acts": client.person.acts, "plant": plant.name, "about": plant.about,
                "inputs": [point._asdict() for point in plant.input], "outputs": [point._asdict() for point in plant.output],
                "trend": plant.trend, "past": list(engine.trend)[-2_000:]})
            while not client.socket.closed:
                paths = [*client.paths, *plant.trend, *engine.inputs.points, *engine.safe]
                news = {path: value for path in paths if (value := engine.values.get(path)) and client.sent.get(path) != value}
                client.sent.update(news)
                await client.send({"status": engine.status, "values": news})
                with suppress(asyncio.TimeoutError):
                    await asyncio.wait_for(client.changed.wait(), self.file.refresh / 1000)
                client.changed.clear()
        await client.socket.close()

    async def _answer(self, client: Client, line: str) -> Answer:
        """The answer to a line: a command of the host, or else one of the session."""
        verb, *words = words_of(line) or [""]
        try:
            if not client.person.acts and verb not in LOOKS:
                raise Trouble("this token is to look, not to act")
            if own := getattr(self, f"do_{verb}", None):
                answer: Answer = await own(client, *words)
            else:
                answer = {"reply": await self.engine.asked(self.engine.operate(client.person.name, line))}
            reply = answer.setdefault("reply", "")
            return {"bad": reply.startswith("refused"), "why": explain(reply), **answer}
        except (TypeError, ValueError):
            return {"reply": f"`help` says what belongs behind `{verb}`", "bad": True}
        except (Trouble, OSError) as error:
            return {"reply": str(error), "bad": True}

    async def do_watch(self, client: Client, *paths: str) -> Answer:
        """Looks at leaves, so that each new value of them is told."""
        spelled = self.engine.spelled
        client.paths = [spelled[path.upper()] for path in paths[:WATCH_LIMIT] if path.upper() in spelled]
        client.sent = {path: value for path, value in client.sent.items() if path not in client.paths}
        self.engine.watched[client] = client.paths
        missing = len(paths) - len(client.paths)
        return {"watched": client.paths, "reply": f"{missing} of these aren't there" if missing else "", "bad": missing > 0}

    async def do_list(self, client: Client, *words: str) -> Answer:
        """The leaves whose path has all words; `--forced` has those that are, and `--plain` hides what blocks keep."""
        search, values = [word.upper() for word in words if not word.startswith("--")], dict(self.engine.values)
        found = [[path, kind, *values.get(path, NONE)] for path, kind in self.engine.types.items()
                 if all(word in path.upper() for word in search) and ("--plain" not in words or "$" not in path)
                 and ("--forced" not in words or values.get(path, NONE)[1])]
        some = f"{LIST_LIMIT} of " if len(found) > LIST_LIMIT else ""
        return {"rows": found[:LIST_LIMIT], "reply": f"{some}{len(found)} variables"}

    async def do_paths(self, client: Client) -> Answer:
        """Paths for completion."""
        return {"paths": list(self.engine.types)[:4_000]}

    async def do_program(self, client: Client) -> Answer:
        """The text, and the steps of its charts."""
        charts, types = dict[str, list[str]](), self.engine.types
        for owner, step in (path[:-3].rsplit(".", 1) for path in types if path.endswith(".$M") and path[:-2] + "X" in types):
            charts.setdefault(owner, []).append(step)
        return {"text": self.engine.story.text.encode("utf-8", "replace").decode(), "charts": charts}

    async def do_preview(self, client: Client, *renames: str) -> Answer:
        """What the text that was sent before would do as a change. Who asked may then do just this."""
        engine, text, client.text, client.preview = self.engine, client.text, "", None
        async with self._previewing:
            old = engine.story.text
            line, reply, said = await preview(engine.plant, old, engine.forced(), text, renames)
        client.preview = (line, old) if reply.startswith("ok") else None
        return {"reply": reply, "said": said}

    async def do_change(self, client: Client) -> Answer:
        """Does the change that this client had a preview of last."""
        if client.preview is None:
            raise Trouble("a change is done after its preview")
        found, client.preview = client.preview, None
        return {"reply": await self.engine.asked(self.engine.operate(client.person.name, *found))}

    async def do_takeback(self, client: Client, number: str) -> Answer:
        others = await self.engine.asked(self.engine.take_back(client.person.name, int(number)))
        return {"reply": "taken back", "rows": [["now answered otherwise", other.line, other.reply] for other in others[:50]]}

    async def do_log(self, client: Client) -> Answer:
        """Who did what: the number of what can be taken back, when, who, line, and reply or what became of it."""
        can_go, records = self.engine.story.can_go, list(self.engine.story.commands.values())[-300:]
        return {"rows": [[record.number if can_go(record.number) else "", str(datetime.fromtimestamp(record.wall // 1000)),
                          record.who, record.line, record.state or record.reply] for record in records]}
