"""What an online change would do, found out beside the plant: by a session with the same text and forces, which is changed."""
import re
from collections.abc import Awaitable, Callable, Sequence
from functools import partial
from . import Trouble
from .plant import BITS, Place, PlantTable
from .session import CODE, TEXT_LIMIT, ask, change_line, forcing, layout_of
from .values import BITS_OF, to_number, to_text

NAMES = 200  # of leaves that are dropped, and that are new, in a preview
Types = dict[str, str]  # of the leaves of a text, by their paths, in order

async def preview(plant: PlantTable, old: str, forces: list[str], text: str, renames: Sequence[str]) -> tuple[str, str, str]:
    """A change as a line, its reply, and what `stc` says that it does. Trouble where what is connected isn't in the new text."""
    if len(text.encode(*CODE)) > TEXT_LIMIT:
        return "", "refused S4 line 1", ""
    line = change_line(text.replace("\r\n", "\n"), renames)
    replies, said = await ask("run", old, plant.main, [*forcing(forces), line])
    said = re.sub(r"session:\d+:1: note: the change is done", "The change does this:", said)
    reply = replies.splitlines()[-1]
    if reply.startswith("ok"):
        before, after = await layout_of(old, plant.main), await layout_of(text, plant.main)
        await connections(plant, text, after, before)
        said = await _named(said, before, after, partial(ask, "run", old, plant.main), line)
    return line, reply, said

async def _named(said: str, before: Types, after: Types, run: Callable[..., Awaitable[tuple[str, str]]], line: str) -> str:
    """What `stc` says of a change, with more names. Forces tell them: what is dropped loses its own, and what has none is new."""
    if not (more := re.compile(r"^  (dropped|new): (.*) and (\d+) more$", re.M)).search(said):
        return said
    forces = forcing(f"{path}:={to_text(kind, 0)}" for path, kind in before.items())
    replies, lost = await run([*forces, line, *(f"show {path}" for path in after)])
    steps = {path[:-2] + letter for path in after if path.endswith(".$M") for letter in "XT"}
    new = [path for path, reply in zip(after, replies.splitlines()[-len(after):])
           if not reply.endswith(" forced") and "$" not in path and path not in steps]
    names = {"dropped": re.findall(r"  force lost: `(.+)` =", lost), "new": new}

    def named(match: re.Match[str]) -> str:
        shown = names[match[1]][:NAMES]
        rest = match[2].count("`") // 2 + int(match[3]) - len(shown)
        return f"  {match[1]}: " + ", ".join(f"`{name}`" for name in shown) + (f" and {rest} more" if rest else "")

    return more.sub(named, said)

async def connections(plant: PlantTable, text: str, types: Types, before: Types | None = None) -> None:
    """Trouble where a text hasn't what the plant's file connects: inputs under VAR_INPUT, fitting types, those from before."""
    qualities = [point.quality for point in plant.input if point.quality]
    inputs, outputs = [*(point.path for point in plant.input), *qualities], [point.path for point in plant.output]
    for path in [*inputs, *outputs]:
        if path not in types:
            raise Trouble(f"the program has no {path}, written like this, which the plant's file connects")
        if path in qualities and types[path] != "BOOL":
            raise Trouble(f"{path} is to be a BOOL: it tells whether an input is good")
        if before and types[path] != before[path]:
            raise Trouble(f"{path}, which the plant's file connects, would get another type")
    for point in plant.output:
        try:
            to_number(types[point.path], point.fault or "")
        except ValueError as error:
            raise Trouble(f"{point.path}: `fault` of the plant's file: {error}") from error
    items: list[Place] = [*plant.input, *plant.output, *(plant.server.map if plant.server else ())]
    for item in items:
        kind, is_bit = types.get(item.path), item.table in BITS
        if kind and item.table and is_bit is not (kind == "BOOL") and (is_bit or item.form is None):
            raise Trouble(f"{item.path} is a {kind}, and doesn't fit the table {item.table}")
        if kind and item.table and not item.form and BITS_OF[kind] > 32:
            raise Trouble(f"{item.path} is a {kind}: `form` is to say how it lies in registers")
    if sum(len(path) + 28 for path in inputs) > 3_900 + 256 * 280:
        raise Trouble("these are more inputs than can be given before one scan")
    lines = [line for path in inputs for line in (f"scan 0 {path}:={to_text(types[path], 0)}", "reset")]
    for path, reply in zip(inputs, (await ask("run", text, plant.main, lines))[0].splitlines()[::2]):
        if reply.startswith("refused"):
            raise Trouble(f"{path} is no VAR_INPUT of the program: {reply}")
