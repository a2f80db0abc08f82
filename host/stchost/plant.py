"""The file of a plant: what its program is, and what it is connected to. `docs/HOST.md` has every key."""
import tomllib
from ipaddress import IPv4Network, IPv6Network, ip_network
from pathlib import Path
from typing import Annotated, Any, Literal, NamedTuple, get_args, get_origin, get_type_hints
from . import Trouble

READING, WRITING = [1, 2, 3, 4], [5, 6, 15, 16]  # functions of Modbus
BITS, WRITABLE = ("coil", "discrete"), ("coil", "holding")

# The tables with their keys and types. `Annotated` has a range of the values, and what it is where it isn't given; what may be
# None, a list or a table may be left out too
Network = IPv4Network | IPv6Network
Text = Annotated[str, ""]
Here = Annotated[str, "127.0.0.1"]
Port = Annotated[int, range(65_536), 502]
Address = Annotated[int, range(65_536), 0]
Order = Annotated[Literal["big", "little"], "big"]
Kind = Literal["coil", "discrete", "input", "holding"]
Form = Literal["BIT", "INT16", "UINT16", "INT32", "UINT32"]
Functions = Annotated[list[Literal[1, 2, 3, 4, 5, 6, 15, 16]], READING]
MapTable = NamedTuple("MapTable", [
    ("path", str), ("table", Kind | None), ("address", Address), ("form", Form | None), ("words", Order), ("bytes", Order)])
PointTable = NamedTuple("PointTable", [
    ("path", str), ("table", Kind | None), ("address", Address), ("form", Form | None), ("words", Order), ("bytes", Order),
    ("device", str | None), ("name", Text), ("title", Text), ("unit", Text), ("low", int | None), ("high", int | None),
    ("fault", str | None), ("quality", str | None)])
DeviceTable = NamedTuple("DeviceTable", [
    ("name", str), ("kind", Literal["simulation", "modbus"]), ("model", Annotated[Literal["tank", "conveyor"], "tank"]),
    ("host", Here), ("port", Port), ("unit", Annotated[int, range(256), 1]), ("share", Annotated[int, range(1, 81), 30])])
AllowTable = NamedTuple("AllowTable", [("address", Network), ("functions", Functions)])
ServerTable = NamedTuple("ServerTable", [
    ("host", Here), ("port", Port), ("clients", Annotated[int, range(1, 65), 8]), ("idle", Annotated[int, range(1, 3_601), 60]),
    ("allow", list[AllowTable]), ("map", list[MapTable])])
JournalTable = NamedTuple("JournalTable", [
    ("sync", Annotated[Literal["never", "second", "always"], "second"]),
    ("piece", Annotated[int, range(4_096, 2**30 + 1), 16_000_000]),
    ("limit", Annotated[int, range(65_536, 2**50 + 1), 4_000_000_000])])
PageTable = NamedTuple("PageTable", [
    ("host", Here), ("port", Annotated[int, range(65_536), 8080]), ("names", list[str]),
    ("clients", Annotated[int, range(1, 101), 16]), ("refresh", Annotated[int, range(50, 10_001), 250])])
PlantTable = NamedTuple("PlantTable", [
    ("program", Path), ("main", Annotated[str, "Main"]), ("steps", Annotated[int, range(1, 10_000_001), 100_000]),
    ("cycle", Annotated[int, range(1, 60_001), None]), ("priority", Annotated[int, range(91), 0]), ("name", str), ("about", Text),
    ("state", Path), ("tokens", Path), ("trend", list[str]), ("trend_keep", Annotated[int, range(10, 86_401), 600]),
    ("journal", JournalTable), ("page", PageTable), ("device", list[DeviceTable]), ("input", list[PointTable]),
    ("output", list[PointTable]), ("server", ServerTable | None)])
Place = MapTable | PointTable

def load(name: str | Path) -> PlantTable:
    """Reads a plant's file, as it is named or with `.toml` behind that. Trouble where it can't be used."""
    path = Path(name if str(name).endswith(".toml") else f"{name}.toml").resolve()
    try:
        found = {"name": path.stem, "state": f"{path.stem}.state"} | tomllib.loads(path.read_text("utf-8"))
        plant: PlantTable = _value({"tokens": f"{found['state']}/tokens.toml"} | found, PlantTable, path.name)
        _check(plant)
    except (OSError, ValueError) as error:
        raise Trouble(f"{path}: {error}") from error
    return plant._replace(**{key: path.parent / getattr(plant, key) for key in ("program", "state", "tokens")})

def _check(plant: PlantTable) -> None:
    """ValueError where the tables of a file don't fit each other."""
    kinds, points = {device.name: device.kind for device in plant.device}, plant.input + plant.output
    if len(kinds) < len(plant.device):
        raise ValueError("two devices have one name")
    names = [point.path.upper() for point in points]
    for point in points:
        if names.count(point.path.upper()) > 1:
            raise ValueError(f"{point.path} stands twice")
        if point.device is not None and point.device not in kinds:
            raise ValueError(f"{point.path}: there is no device `{point.device}`")
        if point in plant.output and point.fault is None:
            raise ValueError(f"{point.path}: the key `fault` is missing")
    remote: list[Place] = [point for point in points if kinds.get(point.device or "") == "modbus"]
    for item in [*remote, *(plant.server.map if plant.server else ())]:
        tables = WRITABLE if item in plant.output else get_args(Kind)
        if item.table not in tables:
            raise ValueError(f"{item.path}: `table` is one of {', '.join(tables)}")
        if item.form is not None and (item.table in BITS) is not (item.form == "BIT"):
            raise ValueError(f"{item.path}: `form` doesn't fit the table {item.table}")

def _value(value: Any, hint: Any, where: str) -> Any:
    """A value of the file, or None where it isn't given, as it is of a type; ValueError where it isn't."""
    origin, args = get_origin(hint), get_args(hint)
    if origin is Annotated:
        *values, default = args[1:]
        value = _value(default if value is None else value, args[0], where)
        if values and value not in values[0]:
            raise ValueError(f"{where} is from {values[0][0]} to {values[0][-1]}")
        return value
    if type(None) in args:
        return None if value is None else _value(value, args[0], where)
    if hasattr(hint, "_fields"):
        return _table({} if value is None else value, hint, where)
    if value is None and origin is not list:
        raise ValueError(f"{where} is missing")
    due: Any = list if origin is list else type(args[0]) if origin is Literal else int if hint is int else str
    value = [] if value is None else value
    if type(value) is not due:
        raise ValueError(f"{where} is to be of type {due.__name__}")
    if origin is Literal and value not in args:
        raise ValueError(f"{where} is one of {', '.join(map(str, args))}")
    if origin is list:
        return [_value(item, args[0], f"{where} {place}") for place, item in enumerate(value, 1)]
    return Path(value) if hint is Path else ip_network(value) if hint == Network else value

def _table(found: Any, kind: Any, where: str) -> Any:
    """A table of the file. Keys that aren't known are refused."""
    if not isinstance(found, dict):
        raise ValueError(f"{where}: a table is due")
    hints = get_type_hints(kind, include_extras=True)
    if unknown := [key for key in found if key not in hints]:
        raise ValueError(f"{where}: there is no key `{unknown[0]}`")
    return kind(**{key: _value(found.get(key), hint, f"{where}: `{key}`") for key, hint in hints.items()})
